/* Texts for the numbers of envy_codes.h, and the version. No memory is taken. */
#ifndef ENVY_TEXT_H
#define ENVY_TEXT_H

#include <stdint.h>

#ifdef __cplusplus
extern "C" {
#endif

/* The version of the headers that a program was compiled with. */
#define ENVY_VERSION "0.5.0"

/* The version of the code that a program is linked with. */
const char *envy_version(void);

/* A text of a few words for an envy_code or an envy_file_code, in English, without a full stop. It is never null. */
const char *envy_error_text(uint32_t code);

/* A text for an envy_map_rule of envy_pair.h, in the same way. */
const char *envy_map_rule_text(uint32_t rule);

#ifdef __cplusplus
}
#endif
#endif
