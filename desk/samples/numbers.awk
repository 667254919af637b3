# A table of file numbers. In the column of 16 bits a number above 32,767 stands as a packer stored it that cut it to 16 bits.
BEGIN {
    OFS = "\t"
    print "File", "Short", "Long"
    print "s72", "I2", "I4"
    print "FileNumbers", "File"
    for (n = 32750; n <= 32785; n++) row(n)
    for (n = 39990; n <= 40010; n++) row(n)
    print "None", "", ""
    print "Least", -32767, -2147483647
    print "Zero", 0, 0
}
function row(n) { print "File" n, (n > 32767 ? n - 65536 : n), n }
