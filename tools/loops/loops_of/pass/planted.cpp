// No mistake is planted; but a test builds this part alone once more, and its environment says which mistake is.
#include <cstdlib>

namespace loops_of {

bool planted([[maybe_unused]] int Number) {
#ifdef PLANTS
  const char *Given = std::getenv("LOOPS_OF_PLANT");
  return Given && std::atoi(Given) == Number;
#else
  return false;
#endif
}

} // namespace loops_of
