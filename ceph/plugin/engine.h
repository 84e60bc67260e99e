// The calls by which a stub reaches the engine. A stub is the file `libcls_NAME.so` that an OSD opens
// as the class NAME: it is small, and each class has a copy of its own. All of a process share one
// engine, `sillarnica_engine.so`, which knows the classes, verifies them and counts their calls.
//
// These calls never change: a stub that was copied once works over each later engine. Another form
// gets another name.
#pragma once

extern "C" {

// How many methods a class can have: each needs a function of its own, since an OSD doesn't tell a
// function which method was called.
enum { SILLARNICA_METHODS = 32 };

// A method as the OSD calls it. The three are what it hands over: a context and two buffer lists.
typedef int (*sillarnica_entry)(void *context, void *input, void *output);

// Opens the class of the stub at a path, which is the one that the OSD opened: the file's name gives
// the class's. Its methods are registered by these functions, the first of them for the first
// method. Null, and a line in the OSD's log, if there is no such class.
void *sillarnica_open_1(const char *path, const sillarnica_entry *entries);

// Calls the method of this number of an opened class: the operation's result.
int sillarnica_call_1(void *opened, unsigned method, void *context, void *input, void *output);
}
