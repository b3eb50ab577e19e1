/* A function of another library is called warn. */
#include <spdlog/spdlog.h>
int main() { spdlog::set_pattern("%v"); spdlog::warn("%i\n"); return 0; }
