// The kit's clang brings no headers: these four declare what c/ uses, for tools/ctest alone. They say nothing of the archive.
#pragma once
typedef __UINT8_TYPE__ uint8_t;
typedef __UINT16_TYPE__ uint16_t;
typedef __UINT32_TYPE__ uint32_t;
typedef __UINT64_TYPE__ uint64_t;
