// The edits that the library answers: what the method's helpers wrote, in their order, as `sillarnica.h`
// spells them.
#pragma once

#include "object.h"

// Makes a list of edits, of a call that was answered by this view of the object. They are made in their order;
// neighbouring sets of keys are one call of the OSD's, and none passes another edit. Of several that remove the object
// the last one is made, and nothing before it. The OSD has no call that removes an xattr: one that only this call set
// isn't set, and for one that the object has the object is made again.
//
// All are read and tested before the first is made. Refused: NAME_IS_OURS; NAME_WITH_NUL; TOO_MUCH, more than 4,096
// edits, of which `why` tells; and where an xattr of before the call is removed, NOT_FIRST behind another step, since
// that may have written what the view doesn't show, else what `make_without` refuses.
int make_edits(cls_method_context_t context, object_view &object, slice written, const char *&why);
