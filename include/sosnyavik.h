/*
** sosnyavik.h: the C view of the Sosnyavik analysis; link with -lsosnyavik.
**
** Cressman's successive corrections over whole numbers. A first guess on a
** rectangular grid is drawn towards station values, scan by scan. The answer
** is the analysed grid, the support of each point and a verdict for each
** station. It follows from the arguments alone, to the last digit.
**
** The whole analysis, and the window query, which answers for a part of the
** grid alone and with the same numbers; for up to sixteen parts in one call, as
** a screen shows them. Beside them stand a point reading and a summary, which
** tell a field in doubles that are exact.
**
** What follows: version, marks, units and sizes, posts, weights, wind, lone
** stations, buddies, windows, results, verdicts, support, refusals, what the
** caller owes, what the calls keep, the calls, and a request by name, which is
** how a program had best call them.
*/
#ifndef SOSNYAVIK_H
#define SOSNYAVIK_H

#include <stdbool.h>
#include <stddef.h>
#include <stdint.h>

#ifdef __cplusplus
extern "C" {
#endif

/*
** VERSION
**
** Its first number is that of the shared object, libsosnyavik.so.3: it rises
** when a call takes other arguments than before, and a program must be compiled
** anew. The second rises with a new call, the third with anything else.
*/
#define SOSNYAVIK_VERSION "3.0.0" /* 2026-11-16 */

/*
** MARKS
**
** SOSNYAVIK_MISSING in the value column: this station has no observation.
** No other number marks one; 32767 is a value like any other. A first guess
** is never missing. In both wind columns of a row: this station has no wind.
**
** SOSNYAVIK_NO_END in the until column: in service with no end.
*/
#define SOSNYAVIK_MISSING INT32_MIN
#define SOSNYAVIK_NO_END UINT32_MAX

/*
** UNITS AND SIZES
**
** Values are whole numbers of 1/64 unit: 10.5 degrees is 672. Positions are
** whole numbers of 1/64 grid step. Times are minutes, counted from anywhere.
**
**   nx, ny        columns and rows of the grid       2 .. 64 each
**   first_guess   nx*ny values, row by row from      -1000000 .. 1000000
**                 row 0: point (i, j) is entry
**                 j*nx + i and stands at x = 64*i,
**                 y = 64*j
**
**   The stations are rows 0, 1, .. of eight columns of equal length, 0 .. 512:
**
**   x, y          position; two may share one, and   -1000000 .. 1000000
**                 one may lie off the grid: see POSTS
**   value         observation                        -1000000 .. 1000000,
**                                                    or SOSNYAVIK_MISSING
**   observed      minute of the observation          any
**   from          first minute in service            below until
**   until         first minute no more in service    above from,
**                                                    or SOSNYAVIK_NO_END
**   wind_u,       wind along x and along y, in any   -100 .. 100 each, or
**   wind_v        unit: see WIND                     both SOSNYAVIK_MISSING
**
**   The plan is entries 0 .. scans-1 of two columns. A column may be longer;
**   entries past the scan count are not read.
**
**   scans         number of scans                    1 .. 6
**   radius        of influence, in position units,   1 .. 1024
**                 never above the one before
**   limit         greatest difference that the scan  0 .. 2000000
**                 accepts, in 1/64 unit
**   smooth        smooth the grid after each scan    true or false
**   mode          what a weight goes by: see WIND    SOSNYAVIK_ROUND or
**                                                    SOSNYAVIK_ALONG_WIND
**   rule          what a lone station does: see      SOSNYAVIK_EQUATIONS or
**                 LONE STATIONS                      SOSNYAVIK_LISTINGS
**   buddy         hold each station to those near    true or false
**                 it: see BUDDIES
**   buddy_radius  how near, in position units; not   1 .. 512
**                 read if buddy is false
**   buddy_limit   greatest difference from their     0 .. 2000000
**                 mean, in 1/64 unit; not read if
**                 buddy is false
**
**   time          minute of the analysis             any
**   age           greatest age of an observation     any
**                 at that minute, in minutes
**
** SOSNYAVIK_DEFAULT_AGE is the age of a request that gives none, by name or as
** text, and SOSNYAVIK_DEFAULT_RULE the rule. Its buddy is false.
*/
#define SOSNYAVIK_DEFAULT_AGE 120

/* The most rows of the station columns. */
#define SOSNYAVIK_MOST_STATIONS 512

/*
** POSTS
**
** A post is a station off the grid by at most SOSNYAVIK_MOST_BEYOND position
** units, four grid steps, along x, along y or, at a corner, along both. It takes
** part:
**
**   - Its weight at a point goes by its true distance, as that of any station,
**     and so does who is near it: see BUDDIES.
**   - Its difference is its observation less the first guess at its nearest
**     place on the grid: each of x and y brought to its bound. No scan changes
**     the first guess, so that this is the same in every scan. A scan after the
**     first rejects a post only if its limit is below all those before; and a
**     point that hears one post alone is moved in each scan by all of its
**     difference, or by its weight's part of it: see LONE STATIONS.
**
** A station where 0 <= x <= 64*(nx-1) and 0 <= y <= 64*(ny-1) is on the grid,
** its border included, and no post. One off the grid by more than
** SOSNYAVIK_MOST_BEYOND, along x or y, is no post either, and has verdict 5. A
** reading beyond the border is off grid, also where a post stands.
*/
#define SOSNYAVIK_MOST_BEYOND 256

/*
** WEIGHTS
**
** In a scan a point is moved by the mean of the accepted stations' differences,
** each counted by its weight there, rounded to the nearest 1/64 unit, halves
** away from zero; where there is one alone, see LONE STATIONS too. Weights are
** whole ten-thousandths. Where d2 is the squared distance from point to station,
** a station with d2 < radius*radius has the weight
**
**   10000*(radius*radius - d2)/(radius*radius + d2), without its fraction
**
** and any other has none. It never rises with the distance:
**
**   radius   d2: weight
**   96       0: 10000   4096: 3846   8192: 588   9216: 0
**   64       3969: 157  3985: 137    4050: 56    4090: 7    4096: 0
**
** Up to a radius of 70 every station inside it has weight. At the rim of a
** wider one the fraction may be below 1, and a station inside has weight 0: it
** moves nothing, and gives no support.
**
** These are the round weights, those of mode SOSNYAVIK_ROUND.
*/

/*
** WIND
**
** On a breezy night warm and cold air lie in streaks. With mode
** SOSNYAVIK_ALONG_WIND a station counts for more at the points that lie before
** or behind it along its own wind, and for as much as ever at those beside it.
**
** Where dx and dy are the station's offset from the point, d2 = dx*dx + dy*dy,
** u and v its wind, V = u*u + v*v and q = u*dx + v*dy, a station with
** d2 < radius*radius has the weight
**
**   10000*(P - Q)/(P + Q), without its fraction, where
**   P = radius*radius*(V*d2 + q*q) and Q = V*d2*d2
**
** and any other has none. It is the round weight where V or d2 is 0, and where
** the station has no wind. It is never below the round one, which it equals
** where the wind is at right angles to the offset (q = 0). Neither the strength
** of a wind nor which of its two ways it blows changes anything:
**
**   radius   dx, dy     no wind   wind 10,0   20,0   -10,0   10,10   0,10
**   96       64, 0      3846      6363        6363   6363    5428    3846
**   96       64, 64     588       2558        2558   2558    3846    2558
**   96       96, 0      0         0           0      0       0       0
**
** No station reaches farther than its radius, in either mode. So a window asks
** for no more of the grid, and a screen costs as many points. But a station at
** the rim, which has weight 0 by the round weight, may have one along its wind,
** and give support.
**
** In mode SOSNYAVIK_ROUND the winds are tested, and not used.
*/
#define SOSNYAVIK_ROUND 0
#define SOSNYAVIK_ALONG_WIND 1

/*
** LONE STATIONS
**
** Where exactly one accepted station is inside the radius of a point, so that
** d2 < radius*radius, the mean of the differences is all of its difference D,
** however far off it stands. So rule SOSNYAVIK_EQUATIONS moves the point: it is
** the rule of the analysis. Programs that follow the listings printed beside
** Cressman's equations move it by less the farther it is. For those who compare
** with one, rule SOSNYAVIK_LISTINGS does so too. It moves the point by
**
**   weight*D/10000, rounded to the nearest 1/64 unit, halves away from zero
**
** which lies between 0 and D. Where the station stands on the point its weight is
** 10000, and the rules agree.
**
** Inside is a matter of the distance: a station inside whose weight is 0 counts.
** Beside it no other is alone, and alone it moves nothing and supports nothing.
** A station that is not accepted, by its verdict so far, does not count. So one
** that its neighbours set aside leaves another alone: see BUDDIES.
**
** The rules differ in nothing else. From the same field they judge alike, support
** alike, and move every other point alike; smoothing and later scans then go by
** the field that each has made. So with SOSNYAVIK_LISTINGS a point far from its
** one station stays near the first guess and is supported all the same: compare
** by that rule, and decide by SOSNYAVIK_EQUATIONS.
**
** Two by two points at 10 degrees, and one mast on the first of them, which reads
** 11: it stands 64, 64 and 90.5 from the others, where its weights are 3846, 3846
** and 588.
**
**   int32_t level[4] = {640, 640, 640, 640};
**   int32_t at[1] = {0}, reads[1] = {704}, reach[1] = {96}, most[1] = {200};
**   uint32_t now[1] = {1000}, always[1] = {0}, open[1] = {SOSNYAVIK_NO_END};
**   int32_t moved[4];
**   uint8_t backed[4], accepted[1];
**   uint32_t r = sosnyavik_analyse(2, 2, level, 4, at, 1, at, 1, reads, 1,
**                                  now, 1, always, 1, open, 1,
**                                  sosnyavik_no_wind(), 1,
**                                  sosnyavik_no_wind(), 1,
**                                  1, reach, 1, most, 1, false,
**                                  SOSNYAVIK_ROUND, SOSNYAVIK_LISTINGS,
**                                  false, 0, 0,
**                                  1000, 60, moved, 4, backed, 4, accepted, 1);
**
** Now r is 0, moved is 704, 665, 665, 644, and each byte of backed is 1. With
** SOSNYAVIK_EQUATIONS moved is 704, 704, 704, 704, and backed is the same.
*/
#define SOSNYAVIK_EQUATIONS 1
#define SOSNYAVIK_LISTINGS 2
#define SOSNYAVIK_DEFAULT_RULE SOSNYAVIK_EQUATIONS

/*
** BUDDIES
**
** A mast in a sunlit courtyard may differ from the field by no more than limit,
** and still disagree with everyone near. With buddy true each scan holds its
** stations to their neighbours too. First it rejects by its limit, as ever. The
** neighbours of a station are then the others that are accepted still and stand
** less than buddy_radius from it: d2 < buddy_radius*buddy_radius, by the true
** positions, those of posts too. One at the same place is a neighbour. Where a
** station has n neighbours, at least two, and its difference is D and the sum of
** theirs S, it is set aside if
**
**   n*D - S is above n*buddy_limit, or below -n*buddy_limit
**
** that is, if D is more than buddy_limit from the mean of theirs. A station with
** fewer than two neighbours never is: of two that disagree nobody can say which
** one is wrong.
**
** All are judged at once, before any is set aside, so that it does not matter in
** what order. Who is set aside has no weight in this scan or a later one, gives no
** support, does not count where LONE STATIONS asks who is inside, and is nobody's
** neighbour in a later scan. It comes back no more, whatever the field is then.
**
** A station that is far off moves the mean that its neighbours are held to. Of
** three near each other, two of which agree, the third is set aside if it differs
** from them by more than buddy_limit, and the two as well if it differs by more
** than twice that. So let limit, which comes first, take the gross errors. And
** two that are wrong alike set aside a third that is right.
**
** Three by three points at 10 degrees. Three masts read 9 degrees, and the last,
** among them in a courtyard, 11.5: by the limit of 200 all four are accepted.
**
**   int32_t level[9] = {640, 640, 640, 640, 640, 640, 640, 640, 640};
**   int32_t east[4] = {32, 96, 64, 64}, south[4] = {32, 32, 96, 64};
**   int32_t reads[4] = {576, 576, 576, 736}, reach[1] = {96}, most[1] = {200};
**   uint32_t now[4] = {1000, 1000, 1000, 1000}, always[4] = {0, 0, 0, 0};
**   uint32_t open[4] = {SOSNYAVIK_NO_END, SOSNYAVIK_NO_END,
**                       SOSNYAVIK_NO_END, SOSNYAVIK_NO_END};
**   int32_t moved[9];
**   uint8_t backed[9], judged[4];
**   uint32_t r = sosnyavik_analyse(3, 3, level, 9, east, 4, south, 4, reads, 4,
**                                  now, 4, always, 4, open, 4,
**                                  sosnyavik_no_wind(), 4,
**                                  sosnyavik_no_wind(), 4,
**                                  1, reach, 1, most, 1, false,
**                                  SOSNYAVIK_ROUND, SOSNYAVIK_EQUATIONS,
**                                  true, 128, 128,
**                                  1000, 60, moved, 9, backed, 9, judged, 4);
**
** Now r is 0, judged is 0, 0, 0, 21, and moved is 576, 576, 576, 576, 576, 576,
** 576, 576, 576. With buddy false judged is 0, 0, 0, 0, and moved is 590, 613,
** 590, 623, 628, 623, 603, 628, 603.
*/

/*
** WINDOWS
**
** A window is the points of columns left .. right and rows top .. bottom. Its
** four ends count from 0 and are inside it: left = right is one column.
**
**   left, right   first and last column              left <= right < nx
**   top, bottom   first and last row                 top <= bottom < ny
**
** The window query has one. A screen has windows 0, 1, .. as the rows of four
** columns of equal length, 0 .. SOSNYAVIK_MOST_WINDOWS: entry k of each is an
** end of window k. They may overlap, and one may come twice.
**
** Grid and support of a window are, point for point, those of the whole
** analysis of the same request. The request is the whole one too, with the
** grid's first guess and stations, posts included: all of it is tested.
*/
#define SOSNYAVIK_MOST_WINDOWS 16

/*
** RESULTS
**
** Of the whole analysis:
**
**   grid          nx*ny values, in first_guess's     -13000000 .. 13000000
**                 order and unit
**   support       nx*ny bytes, in the same order     see SUPPORT
**   verdict       a byte for each station row, so    see VERDICTS
**                 x_len of them
**
** Of the window query, which gives no verdicts:
**
**   grid          (right-left+1)*(bottom-top+1)      -13000000 .. 13000000
**                 values, row by row from the
**                 window's top row: point (i, j)
**                 of the whole grid is entry
**                 (j-top)*(right-left+1) + i-left
**   support       as many bytes, in the same order   see SUPPORT
**
** Of a screen, which gives no verdicts either:
**
**   grid          the values of window 0, then of    -13000000 .. 13000000
**                 window 1, and so on, each as the
**                 window query gives them: as many
**                 as the windows' points together,
**                 65536 at most
**   support       as many bytes, in the same order   see SUPPORT
**
** What the results hold before the call does not matter.
*/

/*
** VERDICTS
**
**    0   accepted, and still so after the last scan
**
** Without influence from the start, for the first of these that fits:
**
**    1   the observation is missing
**    2   out of service: not from <= observed < until, or not
**        from <= time < until (with no end, the upper tests hold)
**    3   observed after the minute of the analysis
**    4   too old: time - observed is above age
**    5   off the grid by more than a post may be: x is below -256 or above
**        64*(nx-1) + 256, or y is below -256 or above 64*(ny-1) + 256
**
** Rejected in a scan and all later ones, because the observation differed by
** more than limit from the field that the scan found, or a post's from the
** first guess:
**
**   11 .. 16   10 + the scan, counted from 1: 11 in the first, 16 in the sixth
**
** Set aside in a scan and all later ones, because it differed from its neighbours
** by more than buddy_limit, as BUDDIES says; if buddy is true:
**
**   21 .. 26   20 + the scan, counted from 1: 21 in the first, 26 in the sixth
*/

/*
** SUPPORT
**
** Bit s-1 of a point's byte is set exactly where the weights of the accepted
** stations had a sum above 0 in scan s, counted from 1:
**
**   scan    1      2      3      4      5      6
**   bit     0x01   0x02   0x04   0x08   0x10   0x20
**
** A byte of 0 is a point that no station reached. Without smoothing it still
** holds its first guess; smoothing may have changed it.
*/

/*
** REFUSALS
**
** Analysis, window query and screen return 0 if the request was accepted, and
** otherwise refusal*65536 + place. Tested in this order; the first that fits is
** given, at the first place that it fits.
**
**   refusal   when                                         place
**   1         nx or ny is out of 2 .. 64, or first_guess   0
**             is not nx*ny long
**   2         in a window query: left is above right,      0
**             top is above bottom, or right or bottom is
**             past the grid
**             on a screen: the four columns of windows     16
**             are not equally long, or longer than 16
**             on a screen, after that: a window is bad,    window, from 0
**             as in a window query
**   3         grid or support is not nx*ny long, or        0
**             verdict is not as long as x; in a window
**             query: grid or support is not as long as
**             the window; on a screen: not as long as
**             its windows together
**   4         the eight station columns are not equally    0
**             long, or longer than 512
**   5         scans is out of 1 .. 6, or radius or limit   0
**             is shorter than scans, or mode is neither
**             SOSNYAVIK_ROUND nor SOSNYAVIK_ALONG_WIND, or
**             rule is neither SOSNYAVIK_EQUATIONS nor
**             SOSNYAVIK_LISTINGS
**   6         a radius is out of range or above the one    scan, from 0
**             before, or a limit is out of range
**             after that: buddy is true, and               6
**             buddy_radius or buddy_limit is out of range
**   7         a first-guess value is out of range          point, from 0
**   8         a station's value is out of range and not    row, from 0
**             the mark, its position is out of range,
**             from is not below until, or its wind is out
**             of range or missing in one column alone;
**             in both modes
**
** Only the window query and the screen give 2. Windows are 0 .. 15 and scans are
** 0 .. 5, so that 16 and 6 are none of them. A row with a verdict of 1 .. 5 to
** come is tested for refusal 8 like any other, and so is one far from every
** window.
**
** The point reading and the summary give only 1, tested on the field that they
** are handed in place of first_guess. The reading tests its support too, which
** must be as long. How each of them says so stands with it below.
**
** A mistake for each, and what comes back:
**
**   nx = 65, one column too many                           0x00010000 =  65536
**   right = nx, which is past the last column              0x00020000 = 131072
**   a screen of seventeen windows                          0x00020010 = 131088
**   a window added to all columns but top                  0x00020010 = 131088
**   bottom[2] = ny, on a screen: window 2                  0x00020002 = 131074
**   grid and support of nx*ny entries, for a window        0x00030000 = 196608
**   a window added to a screen, and not to its results     0x00030000 = 196608
**   a station added to the columns, and not to verdict     0x00030000 = 196608
**   a station added to all columns but y, and to verdict   0x00040000 = 262144
**   scans = 3, with two radii                              0x00050000 = 327680
**   mode = 2                                               0x00050000 = 327680
**   rule = 0, in a request made without SOSNYAVIK_REQUEST  0x00050000 = 327680
**   radius = {96, 192}, the narrow scan first: scan 1      0x00060001 = 393217
**   buddy = true, with no buddy_radius, which is 0 then    0x00060006 = 393222
**   first_guess[4] = SOSNYAVIK_MISSING: point 4            0x00070004 = 458756
**   from[2] and until[2] exchanged: row 2                  0x00080002 = 524290
**   wind_u[1] = SOSNYAVIK_MISSING, wind_v[1] = 0: row 1    0x00080001 = 524289
**
** SOSNYAVIK_REFUSAL and SOSNYAVIK_PLACE take such a number apart.
*/
#define SOSNYAVIK_REFUSAL(r) ((uint32_t)(r) / 65536u)
#define SOSNYAVIK_PLACE(r) ((uint32_t)(r) % 65536u)

/*
** WHAT THE CALLER OWES
**
** None of this can be tested by the call, and all of it is relied upon.
**
**   - Each pointer leads to as many entries as the length after it says, and
**     is aligned for them. A null pointer comes only with a length of 0.
**   - grid, support and verdict overlap neither the inputs nor each other.
**     Inputs may overlap inputs.
**   - Nobody writes to the inputs, or uses the results, during the call.
**   - A bool is 0 or 1.
**   - The stack has room for the call: see WHAT THE CALLS KEEP.
**
** WHAT THE CALLS KEEP
**
**   - A refused call writes nothing. An accepted call writes every entry of
**     its results, and nothing else.
**   - It allocates nothing, keeps no state between calls and has no global
**     state. Any number of threads may call at once, each with results of
**     its own; they may share inputs.
**   - A call touches at most so many bytes of stack, its arguments included.
**     This is measured, by make bench, and not proved. A thread that makes
**     several kinds of calls needs the largest of their numbers, and what its
**     own frames and the system take.
*/
#define SOSNYAVIK_STACK_ANALYSE 40960
#define SOSNYAVIK_STACK_WINDOW 98304
#define SOSNYAVIK_STACK_WINDOWS 98304
#define SOSNYAVIK_STACK_READING 1024
#define SOSNYAVIK_STACK_SUMMARISE 1024

/*
** NO WINDS
**
** SOSNYAVIK_MISSING, as often as there may be stations: the column to pass for
** wind_u and for wind_v, with the length of the others, where no station has a
** wind. A request by name that leaves both out has it passed for it.
*/
static inline const int32_t *sosnyavik_no_wind(void) {
#define SOSNYAVIK_EIGHT(of) of, of, of, of, of, of, of, of
    static const int32_t marks[SOSNYAVIK_MOST_STATIONS] = {
        SOSNYAVIK_EIGHT(SOSNYAVIK_EIGHT(SOSNYAVIK_EIGHT(SOSNYAVIK_MISSING)))};
#undef SOSNYAVIK_EIGHT
    return marks;
}

/*
** THE WHOLE ANALYSIS
**
** The example of the paper: three by three points at 10 degrees, and three
** stations, the last of them taken down at minute 995.
**
**   int32_t first_guess[9] = {640, 640, 640, 640, 640, 640, 640, 640, 640};
**   int32_t x[3] = {64, 0, 128}, y[3] = {64, 0, 128}, value[3] = {768, 576, 700};
**   uint32_t observed[3] = {990, 1000, 990}, from[3] = {0, 0, 0};
**   uint32_t until[3] = {SOSNYAVIK_NO_END, SOSNYAVIK_NO_END, 995};
**   int32_t radius[1] = {96}, limit[1] = {200}, grid[9];
**   uint8_t support[9], verdict[3];
**   uint32_t r = sosnyavik_analyse(3, 3, first_guess, 9, x, 3, y, 3, value, 3,
**                                  observed, 3, from, 3, until, 3,
**                                  sosnyavik_no_wind(), 3,
**                                  sosnyavik_no_wind(), 3,
**                                  1, radius, 1, limit, 1, false,
**                                  SOSNYAVIK_ROUND, SOSNYAVIK_EQUATIONS,
**                                  false, 0, 0,
**                                  1000, 60, grid, 9, support, 9, verdict, 3);
**
** Now r is 0, grid is 587, 672, 768, 672, 757, 768, 768, 768, 768, each byte
** of support is 1, and verdict is 0, 0, 2.
**
** The same evening with a wind along the rows at both stations in service:
**
**   int32_t wind_u[3] = {10, 10, SOSNYAVIK_MISSING};
**   int32_t wind_v[3] = {0, 0, SOSNYAVIK_MISSING};
**   uint32_t r = sosnyavik_analyse(3, 3, first_guess, 9, x, 3, y, 3, value, 3,
**                                  observed, 3, from, 3, until, 3,
**                                  wind_u, 3, wind_v, 3,
**                                  1, radius, 1, limit, 1, false,
**                                  SOSNYAVIK_ALONG_WIND, SOSNYAVIK_EQUATIONS,
**                                  false, 0, 0,
**                                  1000, 60, grid, 9, support, 9, verdict, 3);
**
** Now r is 0, and grid is 615, 648, 768, 696, 729, 768, 768, 768, 768. The two
** points beside the first station were alike, 672. Now the one that lies along
** its wind hears more of it, and the one below hears more of the middle station.
*/
/* clang-format off */
uint32_t sosnyavik_analyse(
    uint32_t nx, uint32_t ny,
    const int32_t *first_guess, size_t first_guess_len,
    const int32_t *x, size_t x_len,
    const int32_t *y, size_t y_len,
    const int32_t *value, size_t value_len,
    const uint32_t *observed, size_t observed_len,
    const uint32_t *from, size_t from_len,
    const uint32_t *until, size_t until_len,
    const int32_t *wind_u, size_t wind_u_len,
    const int32_t *wind_v, size_t wind_v_len,
    uint32_t scans,
    const int32_t *radius, size_t radius_len,
    const int32_t *limit, size_t limit_len,
    bool smooth, uint32_t mode, uint32_t rule,
    bool buddy, int32_t buddy_radius, int32_t buddy_limit,
    uint32_t time, uint32_t age,
    int32_t *grid, size_t grid_len,
    uint8_t *support, size_t support_len,
    uint8_t *verdict, size_t verdict_len);
/* clang-format on */

/*
** THE WINDOW QUERY
**
** The example again, asked for the first two points of row 1 alone:
**
**   int32_t part[2];
**   uint8_t part_support[2];
**   uint32_t r = sosnyavik_window(3, 3, first_guess, 9, 0, 1, 1, 1,
**                                 x, 3, y, 3, value, 3,
**                                 observed, 3, from, 3, until, 3,
**                                 sosnyavik_no_wind(), 3,
**                                 sosnyavik_no_wind(), 3,
**                                 1, radius, 1, limit, 1, false,
**                                 SOSNYAVIK_ROUND, SOSNYAVIK_EQUATIONS,
**                                 false, 0, 0,
**                                 1000, 60, part, 2, part_support, 2);
**
** Now r is 0, part is 672, 757, and both bytes of part_support are 1.
**
** The work goes by the window's reach and not by the grid. For each scan count
** radius/64 rounded up, or (radius + buddy_radius)/64 rounded up if buddy is
** true, and 1 more if smooth is; the reach is the total, in grid steps, 150 at
** most. Only the window widened by its reach on each side, as far as the grid
** goes, is analysed, with the stations there; a post is where its nearest place
** on the grid is. A small window with a short reach is cheap; one whose reach
** covers the grid costs as much as the whole analysis. buddy_radius adds to the
** reach in every scan: who speaks near the window is for neighbours to say, and
** who those are for theirs.
*/
/* clang-format off */
uint32_t sosnyavik_window(
    uint32_t nx, uint32_t ny,
    const int32_t *first_guess, size_t first_guess_len,
    uint32_t left, uint32_t right, uint32_t top, uint32_t bottom,
    const int32_t *x, size_t x_len,
    const int32_t *y, size_t y_len,
    const int32_t *value, size_t value_len,
    const uint32_t *observed, size_t observed_len,
    const uint32_t *from, size_t from_len,
    const uint32_t *until, size_t until_len,
    const int32_t *wind_u, size_t wind_u_len,
    const int32_t *wind_v, size_t wind_v_len,
    uint32_t scans,
    const int32_t *radius, size_t radius_len,
    const int32_t *limit, size_t limit_len,
    bool smooth, uint32_t mode, uint32_t rule,
    bool buddy, int32_t buddy_radius, int32_t buddy_limit,
    uint32_t time, uint32_t age,
    int32_t *grid, size_t grid_len,
    uint8_t *support, size_t support_len);
/* clang-format on */

/*
** A SCREEN OF WINDOWS
**
** Up to sixteen windows in one call: left, right, top and bottom are columns.
** The example again, asked for the window above, for the last two points of
** rows 0 and 1, and for the first point of all:
**
**   uint32_t left[3] = {0, 1, 0}, right[3] = {1, 2, 0};
**   uint32_t top[3] = {1, 0, 0}, bottom[3] = {1, 1, 0};
**   int32_t blocks[7];
**   uint8_t blocks_support[7];
**   uint32_t r = sosnyavik_windows(3, 3, first_guess, 9, left, 3, right, 3,
**                                  top, 3, bottom, 3, x, 3, y, 3, value, 3,
**                                  observed, 3, from, 3, until, 3,
**                                  sosnyavik_no_wind(), 3,
**                                  sosnyavik_no_wind(), 3,
**                                  1, radius, 1, limit, 1, false,
**                                  SOSNYAVIK_ROUND, SOSNYAVIK_EQUATIONS,
**                                  false, 0, 0,
**                                  1000, 60, blocks, 7, blocks_support, 7);
**
** Now r is 0, blocks is 672, 757, 672, 768, 757, 768, 587, and each byte of
** blocks_support is 1. Entries 0 and 1 are of window 0, 2 .. 5 of window 1, and
** 6 of window 2. The middle point, 757, is in two windows and comes twice.
**
** The part of each window is what the window query answers for it. A refusal is
** the whole screen's: where one window is bad, none is written. A screen may
** have no windows: then its results must have no entries, the request is tested
** as ever, and nothing is written.
**
** The request is tested once, and not once for each window. Then each window is
** analysed, widened by its reach, as the window query does it. But where these
** have more points together than the grid, the whole grid is analysed once, and
** serves all windows. So no screen analyses more points than the grid has,
** however many its windows are and however they overlap.
*/
/* clang-format off */
uint32_t sosnyavik_windows(
    uint32_t nx, uint32_t ny,
    const int32_t *first_guess, size_t first_guess_len,
    const uint32_t *left, size_t left_len,
    const uint32_t *right, size_t right_len,
    const uint32_t *top, size_t top_len,
    const uint32_t *bottom, size_t bottom_len,
    const int32_t *x, size_t x_len,
    const int32_t *y, size_t y_len,
    const int32_t *value, size_t value_len,
    const uint32_t *observed, size_t observed_len,
    const uint32_t *from, size_t from_len,
    const uint32_t *until, size_t until_len,
    const int32_t *wind_u, size_t wind_u_len,
    const int32_t *wind_v, size_t wind_v_len,
    uint32_t scans,
    const int32_t *radius, size_t radius_len,
    const int32_t *limit, size_t limit_len,
    bool smooth, uint32_t mode, uint32_t rule,
    bool buddy, int32_t buddy_radius, int32_t buddy_limit,
    uint32_t time, uint32_t age,
    int32_t *grid, size_t grid_len,
    uint8_t *support, size_t support_len);
/* clang-format on */

/*
** THE POINT READING
**
** What a field has at a place, and what stands behind it. Two calls, with the
** same arguments: the kind of the reading, and its double.
**
**   nx, ny        columns and rows of the grid       2 .. 64 each
**   field         nx*ny values, row by row, such     any
**                 as an analysed grid
**   support       nx*ny bytes, in the same order     any
**   x, y          position                           any
**
** The double is in whole units: a field of 672 reads 10.5. With the lower corner
** of the place's cell at (m, n), a = x - 64*m and b = y - 64*n it is
**
**   ((64-a)*(64-b)*z(m,n) + a*(64-b)*z(m+1,n)
**    + (64-a)*b*z(m,n+1) + a*b*z(m+1,n+1)) / 262144
**
** and exact: nothing is rounded. A place on the last column or row uses the last
** cell, with a or b = 64. Zero is positive zero.
**
**   kind                       when                                  double
**   0  SOSNYAVIK_OFF_GRID      not 0 <= x <= 64*(nx-1), or           0
**                              not 0 <= y <= 64*(ny-1)
**   1  SOSNYAVIK_FIRST_GUESS   a corner with a nonzero share has     the reading
**                              a support byte of 0
**   2  SOSNYAVIK_BACKED        no such corner has                    the reading
**   3  SOSNYAVIK_REFUSED       nx or ny is out of 2 .. 64, or        0
**                              field or support is not nx*ny long
**
** 3 is tested first. Here is 0 everywhere but for a second point of 1/64 unit,
** read half way between four, and on a point:
**
**   int32_t field[4] = {0, 1, 0, 0};
**   uint8_t backed[4] = {1, 1, 1, 0};
**   sosnyavik_reading_kind(2, 2, field, 4, backed, 4, 32, 32)     1
**   sosnyavik_reading_value(2, 2, field, 4, backed, 4, 32, 32)    0.00390625
**   sosnyavik_reading_kind(2, 2, field, 4, backed, 4, 64, 0)      2
**   sosnyavik_reading_value(2, 2, field, 4, backed, 4, 64, 0)     0.015625
**   sosnyavik_reading_kind(2, 2, field, 4, backed, 4, 65, 0)      0
**   sosnyavik_reading_kind(2, 2, field, 4, backed, 3, 64, 0)      3
*/
#define SOSNYAVIK_OFF_GRID 0
#define SOSNYAVIK_FIRST_GUESS 1
#define SOSNYAVIK_BACKED 2
#define SOSNYAVIK_REFUSED 3

/* clang-format off */
uint32_t sosnyavik_reading_kind(
    uint32_t nx, uint32_t ny, const int32_t *field, size_t field_len,
    const uint8_t *support, size_t support_len,
    int32_t x, int32_t y);

double sosnyavik_reading_value(
    uint32_t nx, uint32_t ny, const int32_t *field, size_t field_len,
    const uint8_t *support, size_t support_len,
    int32_t x, int32_t y);
/* clang-format on */

/*
** THE SUMMARY
**
** The lowest and the highest value of a whole field, and their span, which is
** the highest less the lowest: doubles in whole units, each exact. Any field
** will do. Zero is positive zero.
**
** refusal is 0, or 1 if nx or ny is out of 2 .. 64 or field is not nx*ny long;
** then units holds three zeros. place is 0.
**
**   int32_t field[4] = {-32, 0, 640, 672};
**   struct sosnyavik_summary s = sosnyavik_summarise(2, 2, field, 4);
**
** Now s.refusal is 0, s.units.lowest is -0.5, s.units.highest is 10.5 and
** s.units.span is 11.
*/
struct sosnyavik_summary {
    uint32_t refusal, place;
    struct {
        double lowest, highest, span;
    } units;
};

/* clang-format off */
struct sosnyavik_summary sosnyavik_summarise(
    uint32_t nx, uint32_t ny, const int32_t *field, size_t field_len);
/* clang-format on */

/*
** A REQUEST BY NAME
**
** In a row of thirty arguments and more two columns are soon exchanged. So a
** request is a struct too: each column stands under its own name, beside its own
** length. What is said above of an argument holds of the member of its name. For
** each call sosnyavik_NAME there is sosnyavik_request_NAME, which hands the
** members on as they are. It adds one thing: where both wind columns are left
** out, it passes sosnyavik_no_wind for them. The example, its window and its
** screen once more:
**
**   struct sosnyavik_request request = SOSNYAVIK_REQUEST(
**       .nx = 3, .ny = 3, .first_guess = {first_guess, 9},
**       .x = {x, 3}, .y = {y, 3}, .value = {value, 3},
**       .observed = {observed, 3}, .from = {from, 3}, .until = {until, 3},
**       .scans = 1, .radius = {radius, 1}, .limit = {limit, 1},
**       .time = 1000);
**   request.age = 60;
**   struct sosnyavik_results whole = {
**       .grid = {grid, 9}, .support = {support, 9}, .verdict = {verdict, 3}};
**   struct sosnyavik_ends ends = {
**       .left = 0, .right = 1, .top = 1, .bottom = 1};
**   struct sosnyavik_results window = {
**       .grid = {part, 2}, .support = {part_support, 2}};
**   struct sosnyavik_screen screen = {
**       .left = {left, 3}, .right = {right, 3},
**       .top = {top, 3}, .bottom = {bottom, 3}};
**   struct sosnyavik_results shown = {
**       .grid = {blocks, 7}, .support = {blocks_support, 7}};
**   uint32_t r = sosnyavik_request_analyse(&request, whole);
**   uint32_t s = sosnyavik_request_window(&request, ends, window);
**   uint32_t t = sosnyavik_request_windows(&request, screen, shown);
**   double at_64_64 = sosnyavik_request_reading_value(&request, whole, 64, 64);
**
** Now r, s and t are 0, grid, support, verdict, part, part_support, blocks and
** blocks_support are as above, and at_64_64 is 11.828125.
**
** SOSNYAVIK_REQUEST gives each member that is not named in it its default: age is
** SOSNYAVIK_DEFAULT_AGE, rule is SOSNYAVIK_DEFAULT_RULE, all else is 0, false or
** no entries. So buddy is false, and no station is held to its neighbours. A
** member that comes with a later version has a default by which the answers stay;
** so write every request by SOSNYAVIK_REQUEST. In C a member whose default is not
** 0, which is age or rule, is set after it, as above. In C++20 members are named
** in the order below, those two too. In C++11 none is named, and all are set
** after it:
**
**   sosnyavik_request request = SOSNYAVIK_REQUEST();
**   request.nx = 3, request.ny = 3, request.first_guess = {first_guess, 9};
**
** A window, which is no part of a request, has its four ends in a struct, and a
** screen has its four columns in one, at most SOSNYAVIK_MOST_WINDOWS entries
** each. Results are slices to be written; window query and screen ask for no
** verdict. The reading and the summary take nx and ny from a request, and grid
** and support from the results of its whole analysis.
**
** A request of zeros alone, made without SOSNYAVIK_REQUEST, is refused like any
** other: it has no columns and no rows, which is refusal 1.
*/
struct sosnyavik_i32_column {
    const int32_t *at;
    size_t count;
};

struct sosnyavik_u32_column {
    const uint32_t *at;
    size_t count;
};

struct sosnyavik_ends {
    uint32_t left, right, top, bottom;
};

/* The windows of a screen: entry k of each column is an end of window k. */
struct sosnyavik_screen {
    struct sosnyavik_u32_column left, right, top, bottom;
};

struct sosnyavik_i32_result {
    int32_t *at;
    size_t count;
};

struct sosnyavik_u8_result {
    uint8_t *at;
    size_t count;
};

/* In C++ a member has its default. In C it cannot: SOSNYAVIK_REQUEST has those that are not 0. */
/* clang-format off */
#ifdef __cplusplus
#define SOSNYAVIK_REQUEST(...) {__VA_ARGS__}
#define SOSNYAVIK_OR(...) = __VA_ARGS__
#else
#define SOSNYAVIK_REQUEST(...) {.rule = SOSNYAVIK_DEFAULT_RULE, .age = SOSNYAVIK_DEFAULT_AGE, __VA_ARGS__}
#define SOSNYAVIK_OR(...)
#endif

struct sosnyavik_request {
    uint32_t nx SOSNYAVIK_OR(0), ny SOSNYAVIK_OR(0);
    struct sosnyavik_i32_column first_guess SOSNYAVIK_OR({});
    struct sosnyavik_i32_column x SOSNYAVIK_OR({}), y SOSNYAVIK_OR({}), value SOSNYAVIK_OR({});
    struct sosnyavik_u32_column observed SOSNYAVIK_OR({}), from SOSNYAVIK_OR({}), until SOSNYAVIK_OR({});
    struct sosnyavik_i32_column wind_u SOSNYAVIK_OR({}), wind_v SOSNYAVIK_OR({});
    uint32_t scans SOSNYAVIK_OR(0);
    struct sosnyavik_i32_column radius SOSNYAVIK_OR({}), limit SOSNYAVIK_OR({});
    bool smooth SOSNYAVIK_OR(false);
    uint32_t mode SOSNYAVIK_OR(SOSNYAVIK_ROUND), rule SOSNYAVIK_OR(SOSNYAVIK_DEFAULT_RULE);
    bool buddy SOSNYAVIK_OR(false);
    int32_t buddy_radius SOSNYAVIK_OR(0), buddy_limit SOSNYAVIK_OR(0);
    uint32_t time SOSNYAVIK_OR(0), age SOSNYAVIK_OR(SOSNYAVIK_DEFAULT_AGE);
};

struct sosnyavik_results {
    struct sosnyavik_i32_result grid SOSNYAVIK_OR({});
    struct sosnyavik_u8_result support SOSNYAVIK_OR({}), verdict SOSNYAVIK_OR({});
};
/* clang-format on */
#undef SOSNYAVIK_OR

/* A slice, and what each call asks of a request: one place for every argument, whatever the number of calls. */
/* clang-format off */
#define SOSNYAVIK_SLICE(of) (of).at, (of).count
#define SOSNYAVIK_GUESS(of) (of)->nx, (of)->ny, SOSNYAVIK_SLICE((of)->first_guess)
#define SOSNYAVIK_REST(of) \
    SOSNYAVIK_SLICE((of)->x), SOSNYAVIK_SLICE((of)->y), SOSNYAVIK_SLICE((of)->value), \
    SOSNYAVIK_SLICE((of)->observed), SOSNYAVIK_SLICE((of)->from), SOSNYAVIK_SLICE((of)->until), \
    SOSNYAVIK_SLICE(sosnyavik_wind_or_none((of), (of)->wind_u)), \
    SOSNYAVIK_SLICE(sosnyavik_wind_or_none((of), (of)->wind_v)), \
    (of)->scans, SOSNYAVIK_SLICE((of)->radius), SOSNYAVIK_SLICE((of)->limit), \
    (of)->smooth, (of)->mode, (of)->rule, (of)->buddy, (of)->buddy_radius, (of)->buddy_limit, \
    (of)->time, (of)->age

/* A wind column of a request; where both are left out, one of marks. More rows than there are marks are refused either way. */
static inline struct sosnyavik_i32_column sosnyavik_wind_or_none(
    const struct sosnyavik_request *request, struct sosnyavik_i32_column wind) {
    size_t rows = request->x.count;
    struct sosnyavik_i32_column none = {
        sosnyavik_no_wind(), rows < SOSNYAVIK_MOST_STATIONS ? rows : SOSNYAVIK_MOST_STATIONS};
    return request->wind_u.at == NULL && request->wind_v.at == NULL ? none : wind;
}

static inline uint32_t sosnyavik_request_analyse(
    const struct sosnyavik_request *request,
    struct sosnyavik_results results) {
    return sosnyavik_analyse(SOSNYAVIK_GUESS(request), SOSNYAVIK_REST(request),
                             SOSNYAVIK_SLICE(results.grid), SOSNYAVIK_SLICE(results.support),
                             SOSNYAVIK_SLICE(results.verdict));
}

static inline uint32_t sosnyavik_request_window(
    const struct sosnyavik_request *request,
    struct sosnyavik_ends ends, struct sosnyavik_results results) {
    return sosnyavik_window(SOSNYAVIK_GUESS(request), ends.left, ends.right, ends.top, ends.bottom,
                            SOSNYAVIK_REST(request),
                            SOSNYAVIK_SLICE(results.grid), SOSNYAVIK_SLICE(results.support));
}

static inline uint32_t sosnyavik_request_windows(
    const struct sosnyavik_request *request,
    struct sosnyavik_screen screen, struct sosnyavik_results results) {
    return sosnyavik_windows(SOSNYAVIK_GUESS(request), SOSNYAVIK_SLICE(screen.left), SOSNYAVIK_SLICE(screen.right),
                             SOSNYAVIK_SLICE(screen.top), SOSNYAVIK_SLICE(screen.bottom), SOSNYAVIK_REST(request),
                             SOSNYAVIK_SLICE(results.grid), SOSNYAVIK_SLICE(results.support));
}

static inline uint32_t sosnyavik_request_reading_kind(
    const struct sosnyavik_request *request,
    struct sosnyavik_results results, int32_t x, int32_t y) {
    return sosnyavik_reading_kind(request->nx, request->ny, SOSNYAVIK_SLICE(results.grid),
                                  SOSNYAVIK_SLICE(results.support), x, y);
}

static inline double sosnyavik_request_reading_value(
    const struct sosnyavik_request *request,
    struct sosnyavik_results results, int32_t x, int32_t y) {
    return sosnyavik_reading_value(request->nx, request->ny, SOSNYAVIK_SLICE(results.grid),
                                   SOSNYAVIK_SLICE(results.support), x, y);
}

static inline struct sosnyavik_summary sosnyavik_request_summarise(
    const struct sosnyavik_request *request,
    struct sosnyavik_results results) {
    return sosnyavik_summarise(request->nx, request->ny, SOSNYAVIK_SLICE(results.grid));
}
/* clang-format on */
#undef SOSNYAVIK_SLICE
#undef SOSNYAVIK_GUESS
#undef SOSNYAVIK_REST

#ifdef __cplusplus
}
#endif

#endif
