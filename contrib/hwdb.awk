# Turns a list of USB numbers in the syntax of usb.ids into a file of systemd's hardware database:
#   awk -f hwdb.awk numbers.ids > /etc/udev/hwdb.d/30-usbreg.hwdb && systemd-hwdb update
# udev's properties, and lsusb, then have the names. In such a file a # begins a comment anywhere, so that of a title is
# written as its wide form.

{ gsub(/#/, "＃") }

/^[0-9a-f][0-9a-f][0-9a-f][0-9a-f]  / {
    vendor = toupper(substr($0, 1, 4))
    printf "\nusb:v%s*\n ID_VENDOR_FROM_DATABASE=%s\n", vendor, substr($0, 7)
}

/^\t[0-9a-f][0-9a-f][0-9a-f][0-9a-f]  / {
    printf "\nusb:v%sp%s*\n ID_MODEL_FROM_DATABASE=%s\n", vendor, toupper(substr($0, 2, 4)), substr($0, 8)
}
