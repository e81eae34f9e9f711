// The plug-in as one unit: most of the time of a part alone goes into LLVM's headers.
#include "places.cpp"
#include "refusals.cpp"
#include "carried.cpp"
#include "outline.cpp"
#include "plugin.cpp"
