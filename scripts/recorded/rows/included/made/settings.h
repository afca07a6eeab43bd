/* What the build has before each file: the command says -include. */
#ifndef SETTINGS_H
#define SETTINGS_H
#define LIMIT 3
#define NAME_OF(entry) ((entry)->name)
struct entry;
int weight_of(const struct entry *entry);
#endif
