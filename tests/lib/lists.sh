# Parts of holdings lists as a script writes them, and names of releases. HEADER has 151 bytes, ACTA 54 and BETA 38.
HEADER='publication_title\tprint_identifier\tonline_identifier\tdate_first_issue_online\tnum_first_vol_online'
HEADER="$HEADER"'\tdate_last_issue_online\tnum_last_vol_online\ttitle_url\n'
ACTA='Acta\t2434-561X\t\t1995\t1\t2001-06-30\t7\thttp://a.example/\n'
BETA='Beta\t\t0317-8471\t\t\t\t\thttp://b.example/\n'
# Labels with one more, publication_type, and a book.
TYPED="${HEADER%??}"'\tpublication_type\n'
OMEGA='Omega\t0-306-40615-2\t\t\t\t\t\thttp://o.example/\tmonograph\n'
GAMMA='Gamma\t1050-124X\t\t1990\t\t\t\thttp://g.example/\n'

J=Acme_Global_All_2024-01-01.txt
F=Acme_Global_All_2024-02-01.txt
M=Acme_Global_All_2024-03-01.txt

# Labels without the last one, title_url: a bad file of 141 bytes.
SHORT='publication_title\tprint_identifier\tonline_identifier\tdate_first_issue_online\tnum_first_vol_online'
SHORT="$SHORT"'\tdate_last_issue_online\tnum_last_vol_online\n'
