/* The version, which everything else is held to: the library, the Rust crate, the Python package, the pkg-config file, the wheel,
 * ./certify --version. zg_version() of zegrafult.h tells the library's; where it is not ZEGRAFULT_VERSION_NUMBER, the program was
 * compiled with the headers of another one. */
#ifndef ZEGRAFULT_VERSION_H
#define ZEGRAFULT_VERSION_H

#define ZEGRAFULT_VERSION_MAJOR 0
#define ZEGRAFULT_VERSION_MINOR 1
#define ZEGRAFULT_VERSION_PATCH 0
#define ZEGRAFULT_VERSION "0.1.0"
/* 10000*major + 100*minor + patch. */
#define ZEGRAFULT_VERSION_NUMBER (10000 * ZEGRAFULT_VERSION_MAJOR + 100 * ZEGRAFULT_VERSION_MINOR + ZEGRAFULT_VERSION_PATCH)

#ifdef __cplusplus
extern "C" {
#endif

/* The version of these headers, as a text. */
static inline const char *zg_version_text(void) { return ZEGRAFULT_VERSION; }

#ifdef __cplusplus
}
#endif
#endif
