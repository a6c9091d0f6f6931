# Entries of a history from a list of events, one a line, oldest first:
#   w CLIENT ITEM VALUE TS.SITE.GEAR      a client wrote an item
#   r CLIENT ITEM TS.SITE.GEAR VALUE      a client read an item; `r CLIENT ITEM -` where it had no version
#   v SITE ITEM TS.SITE.GEAR              an update became visible at a site
$1 == "w" { print "write " $2 " " $3 " " $4 " -> wrote " $5; next }
$1 == "r" { print "read " $2 " " $3 " -> read " ($4 == "-" ? "none" : $4 " " $5); next }
$1 == "v" { print "stamp " $2 " -> shown " $3 " " $4; next }
{ print "events.awk: line " NR ": no event" > "/dev/stderr"; exit 1 }
