// Sorts shapes by their areas, in a box: nc-cc shapes.d -o shapes && nc-run shapes
module shapes;
import core.stdc.stdio : printf;

struct Shape {
    string name;
    double width, height;

    double area() const { return width * height; }
}

/// A template, by which any slice is sorted with any order.
void sort(alias before, T)(T[] slice) {
    foreach (i; 1 .. slice.length) {
        for (size_t k = i; k > 0 && before(slice[k], slice[k - 1]); k--) {
            T other = slice[k];
            slice[k] = slice[k - 1];
            slice[k - 1] = other;
        }
    }
}

ulong fibonacci(uint n) {
    ulong[2] last = [0, 1];
    foreach (_; 0 .. n) {
        last = [last[1], last[0] + last[1]];
    }
    return last[0];
}

extern (C) int main() {
    Shape[3] shapes = [Shape("square", 1.5, 1.5), Shape("bar", 12, 0.125), Shape("field", 2, 3.25)];
    sort!((a, b) => a.area < b.area)(shapes[]);
    foreach (ref shape; shapes) {
        printf("%-8.*s %.3f\n", cast(int) shape.name.length, shape.name.ptr, shape.area);
    }
    enum table = () { ulong[5] made; foreach (i, ref m; made) m = fibonacci(cast(uint) (20 * i)); return made; }();
    foreach (i, value; table) {
        printf("%u: %llu %s\n", cast(uint) (20 * i), value, fibonacci(cast(uint) (20 * i)) == value ? "same".ptr : "other".ptr);
    }
    scope (exit) printf("done\n");
    return 0;
}
