# Lists for sessions of kbfeed-convert. LABELS are those of a vendor, and TIDES is a record under them.
LABELS='Journal Title,Print ISSN,Online ISSN,Coverage begins,Coverage ends,URL\n'
TIDES='Tides,2434-561X,,1995,,https://a.example/tides\n'

# Prints the cells of a list on standard input that are not empty, in a short form: without the type `serial`.
cells() {
  awk -F '\t' 'NR == 1 { for (i = 1; i <= NF; i++) label[i] = $i; next }
    { line = ""
      for (i = 1; i <= NF; i++) if ($i != "" && $i != "serial") line = line (line == "" ? "" : " | ") $i
      print line }'
}
