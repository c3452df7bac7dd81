/* What OpenCV's pyrDown and pyrUp take for the steps of coding and rebuilding, on one thread: the averages of all levels
 * of a picture, and EXPAND of each of them into the size of the level below. Their kernel is (1 4 6 4 1) / 16 in each
 * axis, a = 3/8, which lies between our kernels 3 and 4; the edges are reflected as ours are. The numbers are bytes.
 * Nothing is subtracted, quantized, added or clamped here. With the Debian package libopencv-imgproc-dev:
 *     g++ -O3 -o target/bench/opencv bench/opencv.cpp -I/usr/include/opencv4 -lopencv_imgproc -lopencv_core */
#include <opencv2/imgproc.hpp>

#include <algorithm>
#include <chrono>
#include <cstdio>
#include <vector>

namespace {

double microseconds_now()
{
    using namespace std::chrono;
    return duration<double, std::micro>(steady_clock::now().time_since_epoch()).count();
}

/* The best of 25 rounds of at least 4 ms, as bench/pyramid.c measures. */
template <typename Steps> double best(Steps steps)
{
    double least = 1e9;
    for (int round = 0; round < 25; round++) {
        double start = microseconds_now(), passed = 0;
        int turns = 0;
        while (passed < 4000) {
            steps();
            turns++;
            passed = microseconds_now() - start;
        }
        least = std::min(least, passed / turns);
    }
    return least;
}

void measure(int side, int depth)
{
    std::vector<cv::Mat> averages(depth + 1), expanded(depth);
    for (int level = 0; level <= depth; level++) {
        int width = ((side - 1) >> level) + 1;
        averages[level].create(width, width, CV_8U);
        if (level < depth)
            expanded[level].create(width, width, CV_8U);
    }
    for (int row = 0; row < side; row++)
        for (int column = 0; column < side; column++)
            averages[0].at<uchar>(row, column) = uchar(128 + (row * 7919 + column * 104729) % 97 - 48);
    double down = best([&] {
        for (int level = 0; level < depth; level++)
            cv::pyrDown(averages[level], averages[level + 1], averages[level + 1].size());
    });
    double up = best([&] {
        for (int level = 0; level < depth; level++)
            cv::pyrUp(averages[level + 1], expanded[level], expanded[level].size());
    });
    std::printf("| %3d by %3d | %10.2f | %10.2f | %10.2f |\n", side, side, down, up, down + up);
}

} // namespace

int main()
{
    cv::setNumThreads(1);
    std::printf("OpenCV %s\n|       size | pyrDown us |   pyrUp us |    both us |\n|---|---|---|---|\n", CV_VERSION);
    measure(17, 4);
    measure(33, 5);
    measure(65, 6);
    measure(129, 6);
}
