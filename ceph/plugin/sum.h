// SHA-256, by which operators compare images, as `sha256sum` prints it.
#pragma once

#include "bytes.h"

std::string sum_of(slice from);
