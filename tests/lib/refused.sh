# Runs a program again and again, and refuses it each request for memory in turn, every third one or with THOROUGH every
# one, until a run meets no refusal. Each run is right, or reports that memory ran out; no answer is replaced by another
# one. drivers/refused_allocations.py lists the lines that are allowed. The script `gaps` has pieces with gaps between
# them. Needs lists.sh.
EVERY=3; [ -z "$THOROUGH" ] || EVERY=1
P=Acme_Global_All
refused() { python3 "$TESTS/drivers/refused_allocations.py" --every $EVERY "$@"; }
mkdir lists; printf "$HEADER$ACTA" > lists/$J; printf "$HEADER$ACTA$BETA" > lists/$F; printf "$SHORT" > lists/$M
printf '%s\n' 'nodes 1' 'publish X_2024-01-01.txt 0123456789' 'offer 1 X_2024-01-01.txt' \
  'deliver 1 X_2024-01-01.txt 0 2' 'deliver 1 X_2024-01-01.txt 4 2' 'deliver 1 X_2024-01-01.txt 8 1' \
  'deliver 1 X_2024-01-01.txt 1 7' 'deliver 1 X_2024-01-01.txt 9 1' > gaps
