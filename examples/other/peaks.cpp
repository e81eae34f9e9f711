// The highest sample of each channel, by a class in C++: epoch e hands sample e to channel e mod 4.
// Four samples later an epoch needs the peak that the one before it left; the peaks lie in one line.
// Made by tools/image-of peaks.cpp, with gcc.
//
// Report:
//> end done 12
//> at 00000070 09000000080000000b00000007000000
//
// image: --epochs 12 --limit 100
template <class T> class Peak {
    T highest = 0;

public:
    void take(T one) { highest = one > highest ? one : highest; }
};

constexpr unsigned samples[12] = {3, 8, 2, 7, 9, 1, 11, 4, 5, 6, 10, 0};
Peak<unsigned> peaks[4] __attribute__((aligned(16)));

extern "C" void body(unsigned epoch)
{
    peaks[epoch % 4].take(samples[epoch]);
}
