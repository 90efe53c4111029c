#ifndef OTHERS_FEATURES_H
#define OTHERS_FEATURES_H
#define hidden
#define weak_alias(one, other) extern int others_unused
#define weak
#endif
