/* The version of the gateway core and its host; CHANGELOG.md says what changed. */
#ifndef VERSION_H
#define VERSION_H

#define GATEWAY_VERSION "0.9.0"

#endif
