#include <sandbarstove.h>
#include <sandbarstove_text.h>
#include <stdio.h>

int main(void) {
  static const uint8_t no_image[1] = {0};
  sandbar_why why;
  sandbar_map map = {1, 0};
  uint32_t code = sandbar_verify(&map, 1, no_image, sizeof no_image, &why);
  printf("library %u: %s\n", (unsigned)sandbar_version(), sandbar_text(code));
  return sandbar_version() == SANDBAR_VERSION && code == SANDBAR_BAD_IMAGE ? 0 : 1;
}
