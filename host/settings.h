/* The settings of the box at power-up: setpoints and alarm switches, from a file or without one.
 *
 * A file has a line for each thing that is set; # begins a comment anywhere, and what is not named is 0 or off:
 *
 *     input 3 setpoint-one 100            counts: 0 to 4294967295
 *     input 3 setpoint-two 150
 *     input 3 usage-setpoint 1h           a time: a number alone is in ms; ms, s, min or h may stand behind it
 *     input 3 alarm on                    the alarm switch: on or off
 *     relay 5 usage-setpoint 900000
 *
 * A file whose first word is a number has the 40 numbers of `power` in docs/REPLAY.md, and no comments.
 */
#ifndef SETTINGS_H
#define SETTINGS_H

#include "wellacorn.h"

/* Those of a box that was given no file. */
void settings_usual(wellacorn_settings *s);

/* Reads the file. Where it cannot be used, prints every error with its line and what to do, to standard error, and gives false. */
bool settings_read(wellacorn_settings *s, const char *path);

/* Reads the file, and prints what it means to standard output, a line for each thing that is set. False as above. */
bool settings_check(const char *path);

#endif
