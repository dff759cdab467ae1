/* A room of three members, as `srm room new` writes one. */
#ifndef ROOM_TEXT_H
#define ROOM_TEXT_H

#define SETTINGS "[settings]\nwaits = [2, 3, 1, 4]\nleast-distance = 5000\nrate = 64000\ndepth = 4204\nlinger = 2000000\nmost-missing = 9\n"
#define HEAD "ringyew = 1\nsession = 4294967295\nkey = \"000102030405060708090a0b0c0d0e0f\"\n\n"
#define ADA "[[member]]\nname = \"ada\"\naddress = \"192.0.2.7:47100\"\n\n"
#define GRACE "[[member]]\nname = \"gr\xc3\xa4" "ce\"\naddress = \"[2001:db8::7]:47101\"\n\n"
#define BOB "[[member]]\nname = \"bob\"\naddress = \"bob.example:65535\"\n\n"
#define OUR_ROOM HEAD ADA GRACE BOB SETTINGS

/* Its key. */
static const uint8_t our_key[16] = {0, 1, 2, 3, 4, 5, 6, 7, 8, 9, 10, 11, 12, 13, 14, 15};

#endif
