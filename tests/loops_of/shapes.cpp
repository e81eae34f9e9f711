// C++ without exceptions and without its library: a constructor that runs before main, virtual calls, references, and a
// function for two types, whose loop is there twice.
#include <stdio.h>

namespace {

struct Table {
    int of[16];

    Table()
    {
        for (int i = 0; i < 16; i++) //: 1 16 | computed i
            of[i] = i * i % 11;
    }
};

struct Shape {
    int side;

    explicit Shape(int side) : side(side) {}
    virtual int area() const { return side; }
};

struct Square : Shape {
    explicit Square(int side) : Shape(side) {}
    int area() const override { return side * side; }
};

template <typename T> T sum(const T *from, int count)
{
    T all = 0;
    for (int i = 0; i < count; i++) //: 1 16 | carried all 34 (a reduction) | computed i
            //: 1 4 | carried all 34 (a reduction) | computed i
        all += from[i];
    return all;
}

Table table;

} // namespace

int main()
{
    Shape line(3);
    Square square(4);
    const Shape *shapes[6];
    for (int i = 0; i < 6; i++) //: 1 6 | computed i
        shapes[i] = i % 3 ? &line : &square;
    int area = 0;
    for (const Shape *one : shapes) //: 1 6 | carried area 51 (a reduction) | computed __begin1
        area += one->area();
    for (int &one : table.of) //: 1 16 | computed __begin1
        one += area;
    double half[4];
    for (int i = 0; i < 4; i++) //: 1 4 | computed i
        half[i] = i / 2.0;
    int whole = sum(table.of, 16);
    printf("%d %d %.1f\n", area, whole, sum(half, 4));
    return 0;
}
