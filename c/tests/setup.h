/* setup.h: the setup of an endpoint, for the tests. */
#ifndef SETUP_H
#define SETUP_H

static const char setup[] = "[endpoint]\n"
                            "name = \"Demo Endpoint X\"\n"
                            "id = \"SN-0001\"\n"
                            "manufacturer = [125, 0, 0]\n"
                            "family = 1\n"
                            "model = 2\n"
                            "revision = [1, 0, 0, 0]\n"
                            "midi1 = true\n"
                            "midi2 = true\n"
                            "protocol = 2\n"
                            "static = true\n"
                            "[[block]]\n"
                            "active = true\n"
                            "name = \"Main\"\n"
                            "hint = 3\n"
                            "midi1 = 0\n"
                            "direction = 3\n"
                            "first = 0\n"
                            "count = 1\n"
                            "ci = 2\n"
                            "sysex8 = 0\n"
                            "muids = [19088743, 300]\n"
                            "[[profile]]\n"
                            "block = 0\n"
                            "place = \"channel\"\n"
                            "group = 0\n"
                            "channel = 2\n"
                            "id = [126, 0, 1, 1, 0]\n"
                            "on = false\n";

#endif
