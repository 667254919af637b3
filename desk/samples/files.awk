# The source of a package of several thousand small files, ten to a component: as a browser's translations and themes are.
BEGIN {
    print "<?xml version=\"1.0\" encoding=\"utf-8\"?>"
    print "<Wix xmlns=\"http://schemas.microsoft.com/wix/2006/wi\">"
    print "<Product Id=\"*\" Name=\"Many files\" Language=\"1033\" Codepage=\"1252\" Version=\"1.0.0\" Manufacturer=\"Strandroost\" UpgradeCode=\"7c3f1f0e-6d5b-4d5e-9f0a-6a2f4a7b9c12\">"
    print "<Package InstallerVersion=\"200\" Compressed=\"yes\" SummaryCodepage=\"1252\"/>"
    print "<Media Id=\"1\" Cabinet=\"files.cab\" EmbedCab=\"yes\"/>"
    print "<Directory Id=\"TARGETDIR\" Name=\"SourceDir\"><Directory Id=\"ProgramFilesFolder\"><Directory Id=\"INSTALLDIR\" Name=\"Many\">"
    for (c = 0; c * 10 < files; c++) {
        printf "<Component Id=\"Component%05d\" Guid=\"0b6d2c1e-3f64-4f0e-8a53-%012x\">\n", c, c + 1
        for (f = c * 10; f < c * 10 + 10 && f < files; f++)
            printf "<File Id=\"File%05d\" Name=\"locale-%05d-%d.pak\" Source=\"settings.json\"%s/>\n", f, f, f * 7919 % 1000, f % 10 == 0 ? " KeyPath=\"yes\"" : ""
        print "</Component>"
    }
    print "</Directory></Directory></Directory>"
    print "<Feature Id=\"All\" Level=\"1\">"
    for (c = 0; c * 10 < files; c++) printf "<ComponentRef Id=\"Component%05d\"/>\n", c
    print "</Feature></Product></Wix>"
}
