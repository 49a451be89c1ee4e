#!/usr/bin/env python3
"""Row 12: prints a session with full registries, 128 sources and 1,024 destinations, and one more of each."""


def refused(code, line):
    print("#= REFUSED %d\n%s" % (code, line))


def main():
    print("# Row 12: the 129th source and the 1,025th destination; other rows at full registries.")
    print("config 42800000 64 1")
    for n in range(128):
        print("source s%d held g u" % n)
    refused(12, "source s128 held g u")
    refused(9, "source s127 velocity v b")
    refused(12, "source ABCDEFGHIJKLMNOPQRSTUVWXYZ0123456 held g u")
    refused(12, "source ~ held g u")
    print("find s127\nfind s128")
    for n in range(1024):
        print("dest p:%d g control 00000000 3F800000 -" % n)
    refused(12, "dest p:1024 g control 00000000 3F800000 -")
    refused(9, "dest p:1023 v audio 7FC00000 3F800000 amt:64")
    refused(10, "dest p:1024 g control 3F800000 3F800000 amt:64")
    refused(11, "dest p:1024 g control 00000000 3F800000 out:64")
    print("slot 0 src=127 dst=p:1023 amt=3F800000\nslot 1 src=128 dst=p:0 amt=3F800000\nslot 2 src=0 dst=p:1024 amt=3F800000")
    print("compile P\nengine\nswap P\nset_held 127 3E800000\nset_base 1023 3DCCCCCD")
    refused(3, "set_held 128 3F800000")
    refused(4, "set_base 1024 3F800000")
    print("process 0 32\nlatest 1023 0\nlatest 1024 0")


main()
