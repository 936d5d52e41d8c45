/* Makes and deletes objects whose class is in another library. */
#include "driver_shapes.h"

int main() {
    printf("noted %d\n", noted);
    Shape *shapes[] = {square(3), square(4)};
    int *areas = new int[2];
    for (int i = 0; i < 2; i++) areas[i] = shapes[i]->area();
    printf("areas %d %d\n", areas[0], areas[1]);
    delete[] areas;
    for (Shape *it : shapes) delete it;
    printf("counted %d\n", counter().count);
}
