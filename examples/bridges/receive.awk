# Prints the bytes that a UART sends: the line is the second column of rows, and a bit lasts four of them.
NR == 1 { next }
wait > 1 { wait--; next }
wait == 1 && bits < 8 { byte += $2 * 2 ^ bits++; wait = 4; next }
wait == 1 { if ($2) printf "%c", byte; wait = 0; next }
$2 == 0 { wait = 5; byte = bits = 0 }
END { print "" }
