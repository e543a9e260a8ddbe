"""The desk program ./vorstelpijp: it turns words into records, settings and calls, and answers into words. What the chips do, only the
proved programs compute.

main        the command line            commands/   the commands, a module each
files       the files that are read     lines       their lines, and those that are wrong
streams     bytes as they come          streaming   their answers as they come
batch       a batch and its remarks     sheets      settings from words, hex or bytes
reading     words to records            statements  what all words have alike
hextext     hex to bytes                wording     records to words
writing     a batch as words or as hex  explaining  the listing in words
calls       calls from words            cutting     what is printed of calls
calling     what calls gave, in words   answers     answers in words
counting    the counts as a table       proved      running proved programs
refusals    why, and what to do         settings    what a byte means to a register
vocabulary  what things are called      terminal    width and weight of a text
trials      what tools/check-desk tries
"""
