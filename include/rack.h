/*
 * Fuel oil in rail tank cars: a whole sheet answered, two sheets merged, and each of a sheet's operations by
 * itself.
 * Link with target/staticlib/librack.a, which bin/library writes.
 *
 * Every function but rack_answer_sheet and rack_merge_sheets hands back
 *   0                 the operation's figures stand in the places that were lent for them;
 *   2 to 32           the refusal of this number (README.md), the first that applies;
 *   RACK_BAD_LENGTH   a slice has not the length that is asked for;
 *   RACK_BAD_LETTER   a byte is no letter of a line (rack_write_line only).
 * Beside any number but 0 nothing is written, but for what rack_train_enter and rack_train_enter_probe say
 * of their train.
 *
 * Slices: an address and how many numbers or bytes stand there. A length in the name of a constant,
 * as [RACK_PLACES], is the only one that is taken; it is compared before anything else, and with a
 * wrong one nothing is read or written. Every other length, 0 included, is taken.
 * Null: no pointer may be null, not even where its length is 0, and each points to as much as is said
 * and is aligned for its type.
 * Overlap: what is lent to be written (no const) must not overlap anything else that is handed over.
 * What is only read may.
 * Threads: nothing is kept after a call and no memory is asked for, so calls from several threads at
 * once do not disturb each other.
 * Stack: 65,536 bytes are enough for every function, and 32,768 for every one but rack_merge_sheets, which
 * takes about 52,000; rack_answer_sheet takes about 29,000, rack_train_enter and rack_train_enter_probe about
 * 6,000, each other function that takes a car or a density about 4,000, of which 3,604 are the stored
 * coefficients of expansion, rack_train_strike about 3,000, the rest less than 2,000.
 *
 * Units: a mean level, a stick level and the level of the tape allowance in 0.1 mm; readings, those of the
 * tape too, water levels and the levels of a table's rows in mm; capacities in dm3 at 20 C, volumes in
 * 0.01 dm3, temperatures in 0.1 C, densities in 0.1 kg/m3, water, impurities and the share of oil in
 * 0.01 %, masses in kg. Given errors and the permitted error are in 0.0001 %, but errors of temperatures in
 * 0.1 C and of the level in 0.1 mm. A probe's readings alone are floats, 32-bit IEEE ones: a level in mm, a
 * temperature in C, a density in kg/m3, which the probe has brought to 15 C; their tenths are in the units
 * above.
 * A level in 0.1 mm that is handed over by itself, either way, has 64 bits, a probe's alone 32; that of an
 * accepted car is at most 36,000.
 */
#ifndef RACK_H
#define RACK_H

#include <stddef.h>
#include <stdint.h>

#ifdef __cplusplus
extern "C" {
#endif

/* Bytes of the longest sheet that is read; a longer one is refused by 2. */
#define RACK_SHEET_BYTES 48111

/* Bytes that an answer buffer must have; a shorter one is refused by 1. */
#define RACK_ANSWER_BYTES 8101

/* Bytes that a buffer for a merged sheet must have; a shorter one is refused by 1. */
#define RACK_MERGE_BYTES 39771

/* No refusals: what is lent cannot be asked about. */
#define RACK_BAD_LENGTH 1000
#define RACK_BAD_LETTER 1001

/* Lengths of slices: the numbers of a line, which are those of a car too; readings; readings of the tape;
   the figures of a stick; tables; the places of their rows, 400 for each table; the figures of a car; its
   given errors; its figures with the permitted error; the numbers of a probe's car; the tenths of a probe's
   set; a train. */
#define RACK_FIELDS 14
#define RACK_READINGS 4
#define RACK_TAPE_READINGS 20
#define RACK_STICK 4
#define RACK_TABLES 4
#define RACK_PLACES 1600
#define RACK_FIGURES 6
#define RACK_ERRORS 6
#define RACK_PERMITTED 8
#define RACK_PROBE_FIELDS 7
#define RACK_SET 3
#define RACK_TRAIN 266

/*
 * Answers the sheet of `text_len` bytes at `text`. The listing is written from the start of `out`,
 * which has `out_len` bytes, and its length in bytes is returned. No zero byte is put after it:
 * the bytes of `out` past the length stay as they were lent. A listing whose last line is neither the
 * fourth G line nor a Z line was cut.
 *
 * `*number` is set to
 *   0       the sheet is read, and `out` has a line for each car and each strike, an S line with the
 *           totals and four G lines with those of each grade; a car or strike that is turned away has a
 *           line with its own refusal;
 *   1       `out` has fewer than RACK_ANSWER_BYTES bytes: nothing is written, and 0 is returned;
 *   2 to 9  the whole sheet is refused by this number, and `out` has one line that says so.
 */
size_t rack_answer_sheet(const uint8_t *text, size_t text_len,
                         uint8_t *out, size_t out_len,
                         uint32_t *number);

/*
 * Makes one sheet of two, of `first_len` bytes at `first` and of `second_len` bytes at `second`. It has each
 * type of either sheet once with its rows, rising by type, also one that no car has; then the cars that
 * either sheet holds at its end, accepted or refused, each by its C line as it stands, rising by number; then
 * E, and no K line. So lines of cars that were struck, and such as 9, 10 or 11 turns away, vanish. The merged
 * sheet is written from the start of `out`, which has `out_len` bytes, and its length in bytes is returned.
 * No zero byte is put after it: the bytes of `out` past the length stay as they were lent.
 *
 * `*number` and `*line` are set to
 *   0, 0        the sheets are merged. rack_answer_sheet reads what is written: each car has the line that it
 *               has on its own sheet, and the totals, of each grade too, are the sums of both sheets';
 *   1, 0        `out` has fewer than RACK_MERGE_BYTES bytes, be the sheets what they may;
 *   2 to 9      a sheet is itself refused by this number, in this line, 0 for 2; the first sheet's refusal
 *               comes before the second's;
 *   33, 0       a type has different rows on the two sheets, or a car that one holds and 12 refuses there has
 *               its type on the other;
 *   34, 0       both sheets hold a car number;
 *   35, 0       more than four types or more than sixty cars would be on the merged sheet.
 * The first that applies, in this order, is given. Beside any number but 0 nothing is written into `out`, and
 * 0 is returned.
 */
size_t rack_merge_sheets(const uint8_t *first, size_t first_len,
                         const uint8_t *second, size_t second_len,
                         uint8_t *out, size_t out_len,
                         uint32_t *number, uint32_t *line);

/*
 * Reads one line of a sheet: the byte of its letter (T, R, C, K or E) into `*letter`, its numbers into
 * `numbers` [RACK_FIELDS], 0 in the places that the letter does not use. The line ends at its first
 * line feed; bytes behind are not looked at. Refusals 3 to 6; the letters of an answer alone (A, X, S,
 * G and Z) are refused by 4.
 */
uint32_t rack_read_line(const uint8_t *text, size_t text_len,
                        uint8_t *letter,
                        uint32_t *numbers, size_t numbers_len);

/*
 * Writes one line from the start of `out`: `letter` (T, R, C, K, E, A, X, S, G or Z) and as many
 * of `numbers` [RACK_FIELDS] as the letter has fields; the others are not looked at. Its length in bytes
 * goes into `*length`, and bytes past it stay as they were. RACK_BAD_LETTER, then 22.
 */
uint32_t rack_write_line(uint8_t letter,
                         const uint32_t *numbers, size_t numbers_len,
                         uint8_t *out, size_t out_len,
                         size_t *length);

/* The mean level, in 0.1 mm, of `count` readings, 2 or 4, of `readings` [RACK_READINGS], in mm: ten times the
   mean, rounded once. Refusals 14, 15, 23, 16 (the mean is 0). */
uint32_t rack_mean_level(uint32_t count,
                         const uint32_t *readings, size_t readings_len,
                         uint64_t *level);

/* The tape allowance at a level in 0.1 mm, in 0.01 mm: 30 for the first metre begun, 15 for each further
   one, which 0.1 mm begins. Refusal 16 (10 to 36,000). */
uint32_t rack_tape_allowance(uint64_t level, uint32_t *allowance);

/*
 * A stick level in 0.1 mm against the mean of the tape: the first `count`, 10 to 20, of `readings`
 * [RACK_TAPE_READINGS], in mm; the other places are not looked at. `figures` [RACK_STICK] gets
 *   [0]  1 where the stick level is below the mean, so that the difference, stick level minus mean, is
 *        negative; else 0;
 *   [1]  the size of the difference in 0.01 mm, a half going away from zero; where it is 0, so is [0];
 *   [2]  1 where the stick passes: before rounding it is at most 2 mm from the mean, either way; else 0;
 *   [3]  the tape allowance at the stick level, in 0.01 mm.
 * Refusals 28 (10 to 20 readings), 29 (1 to 3,600 for each of these, 10 to 36,000 for the stick level).
 */
uint32_t rack_stick_against_tape(uint64_t stick, uint32_t count,
                                 const uint32_t *readings, size_t readings_len,
                                 uint32_t *figures, size_t figures_len);

/*
 * Whether `count` tables are turned away by 7 or 8. Table k, from 0 on, has the type types[k] and
 * rows[k] rows, of which row i has the level levels[400 * k + i] and the capacity
 * capacities[400 * k + i]. Lengths: `types` and `rows` [RACK_TABLES], `levels` and `capacities`
 * [RACK_PLACES]. Places that no table uses are not looked at. Every function below that takes tables
 * takes them in this way.
 */
uint32_t rack_check_tables(uint32_t count,
                           const uint32_t *types, size_t types_len,
                           const uint32_t *rows, size_t rows_len,
                           const uint32_t *levels, size_t levels_len,
                           const uint32_t *capacities, size_t capacities_len);

/* V0 between a water level, in mm, and a mean level, in 0.1 mm, on the table of a type. Refusals 7, 8, 12,
   16, 17. */
uint32_t rack_checked_volume(uint32_t count,
                             const uint32_t *types, size_t types_len,
                             const uint32_t *rows, size_t rows_len,
                             const uint32_t *levels, size_t levels_len,
                             const uint32_t *capacities, size_t capacities_len,
                             uint32_t car_type, uint64_t level, uint32_t water_level,
                             uint32_t *volume);

/* B of step 4, in 0.000000001 per C, of a density at 15 C. Refusal 19. */
uint32_t rack_expansion_of(uint32_t density, uint32_t *expansion);

/* E of step 6, in 0.0000000001, between a temperature and 15 C. Refusals 18 (200 to 900), 19. */
uint32_t rack_factor_of(uint32_t density, uint32_t temperature, uint64_t *factor);

/* The density at 20 C of a density at 15 C. Refusal 19. */
uint32_t rack_density_at_20(uint32_t density, uint32_t *density_20);

/* The same for a grade, 1 to 4. Refusals 13, 19, 21. */
uint32_t rack_density_at_20_of_grade(uint32_t grade, uint32_t density, uint32_t *density_20);

/*
 * The density at 15 C of oil whose density a laboratory reports at its own temperature: of 9,000 to
 * 9,900 the one whose density at that temperature is nearest to `reported`, the smallest on a tie.
 * Refusals 26 (200 to 900), 27 (even the nearest differs by more than 1).
 */
uint32_t rack_density_at_15(uint32_t reported, uint32_t temperature, uint32_t *density);

/* What is left of 10,000 beside water and impurities of a grade. Refusals 13, 20. */
uint32_t rack_oil_share(uint32_t grade, uint32_t water, uint32_t impurities, uint32_t *share);

/* The same where no grade is given. Refusal 20 (100 each). */
uint32_t rack_oil_share_any_grade(uint32_t water, uint32_t impurities, uint32_t *share);

/*
 * A car alone. `car` [RACK_FIELDS] has the numbers of its C line in their order; `figures`
 * [RACK_FIGURES] gets those of its A line: car number, mean level in 0.1 mm, V0, V15, gross, net.
 * Refusals 7, 8, 10, 12 to 15, 23, 16 to 21.
 */
uint32_t rack_work_out(uint32_t count,
                       const uint32_t *types, size_t types_len,
                       const uint32_t *rows, size_t rows_len,
                       const uint32_t *levels, size_t levels_len,
                       const uint32_t *capacities, size_t capacities_len,
                       const uint32_t *car, size_t car_len,
                       uint32_t *figures, size_t figures_len);

/*
 * The permitted error beside the mass of a car alone. `car` as in rack_work_out; `errors` [RACK_ERRORS]
 * has the given errors of capacity, density and processing, each 0 to 10,000, of the density's
 * temperature and the oil's, each 0 to 20, and of the level, 0 to 100. `figures` [RACK_PERMITTED] gets
 * those of the A line, the limit n, and 1 where n is within 0.65 %, from 100,000 kg gross on 0.50 %,
 * else 0. Refusals 7, 8, 10, 12 to 15, 23, 16 to 21, 24, 25.
 */
uint32_t rack_permitted_error(uint32_t count,
                              const uint32_t *types, size_t types_len,
                              const uint32_t *rows, size_t rows_len,
                              const uint32_t *levels, size_t levels_len,
                              const uint32_t *capacities, size_t capacities_len,
                              const uint32_t *car, size_t car_len,
                              const uint32_t *errors, size_t errors_len,
                              uint32_t *figures, size_t figures_len);

/*
 * A probe's reading, a level in mm, a temperature in C or a density in kg/m3, in tenths of its unit: ten
 * times the exact binary number, to the nearest whole one, a half going up. So 0.25 gives 3, and so does the
 * float that is written 0.35, as it lies below that. Minus zero is zero. Refusals 31 (negative, infinite or
 * not a number), 32 (more than 99,999,999 tenths).
 */
uint32_t rack_reading_tenths(float reading, uint32_t *tenths);

/* A probe's set, one reading of each kind: `tenths` [RACK_SET] gets the level in 0.1 mm, the temperature in
   0.1 C and the density at 15 C in 0.1 kg/m3. Refusals 31 and 32 of the level, then of the temperature, then
   of the density. */
uint32_t rack_set_tenths(float level, float temperature, float density,
                         uint32_t *tenths, size_t tenths_len);

/*
 * A probe's car alone. `car` [RACK_PROBE_FIELDS] has its car number, type, grade, stick, water level in mm,
 * water and impurities, and the set has the rest: its level in tenths stands for the mean level. `figures`
 * as in rack_work_out. Refusals 31 and 32 of the set, before all others, then 7, 8, 10, 12, 13, 16 to 21.
 */
uint32_t rack_work_out_probe(uint32_t count,
                             const uint32_t *types, size_t types_len,
                             const uint32_t *rows, size_t rows_len,
                             const uint32_t *levels, size_t levels_len,
                             const uint32_t *capacities, size_t capacities_len,
                             const uint32_t *car, size_t car_len,
                             float level, float temperature, float density,
                             uint32_t *figures, size_t figures_len);

/* The permitted error beside the mass of a probe's car alone: `car` and set as in rack_work_out_probe,
   `errors` and `figures` as in rack_permitted_error. Refusals 31, 32, 7, 8, 10, 12, 13, 16 to 21, 24, 25. */
uint32_t rack_permitted_error_probe(uint32_t count,
                                    const uint32_t *types, size_t types_len,
                                    const uint32_t *rows, size_t rows_len,
                                    const uint32_t *levels, size_t levels_len,
                                    const uint32_t *capacities, size_t capacities_len,
                                    const uint32_t *car, size_t car_len,
                                    float level, float temperature, float density,
                                    const uint32_t *errors, size_t errors_len,
                                    uint32_t *figures, size_t figures_len);

/*
 * A train lies in a slice [RACK_TRAIN]: five numbers for all accepted cars, and five for those of each
 * grade, which begin at RACK_TRAIN_GRADE(1) to RACK_TRAIN_GRADE(4); how many cars it holds; and four
 * rows of sixty places, in which the cars stand in the order of their entry: their numbers, their
 * grades, their gross and their net masses. A car of grade 0 was refused, and its masses are not looked
 * at; nor is what stands in the rows behind the cars held. The five are the number of accepted cars, and
 * the totals of gross and of net, each by its low and its high 32 bits: the low 32 bits of the gross of
 * grade 3 stand at RACK_TRAIN_GRADE(3) + RACK_TRAIN_GROSS, those of all cars at RACK_TRAIN_GROSS.
 */
#define RACK_TRAIN_ACCEPTED 0
#define RACK_TRAIN_GROSS 1
#define RACK_TRAIN_GROSS_HIGH 2
#define RACK_TRAIN_NET 3
#define RACK_TRAIN_NET_HIGH 4
#define RACK_TRAIN_GRADE(g) (5 * (g))
#define RACK_TRAIN_HELD 25
#define RACK_TRAIN_NUMBERS 26
#define RACK_TRAIN_GRADES 86
#define RACK_TRAIN_GROSSES 146
#define RACK_TRAIN_NETS 206

/* Makes `train` the empty train. */
uint32_t rack_train_empty(uint32_t *train, size_t train_len);

/*
 * Enters a car in `train`, which may be any numbers, with its tables. `figures` as in rack_work_out.
 * Refusals 7 to 15, 23, 16 to 21. 9 says that `train` holds sixty numbers, or what 9 says of
 * rack_train_strike. With 0, or a refusal from 12 on, the first free place holds the car's number: with 0
 * its grade and masses stand beside it and are in the totals of all cars and of its grade, with a refusal
 * 0 stands for all three. With any other number `train` stays as it was.
 */
uint32_t rack_train_enter(uint32_t *train, size_t train_len,
                          uint32_t count,
                          const uint32_t *types, size_t types_len,
                          const uint32_t *rows, size_t rows_len,
                          const uint32_t *levels, size_t levels_len,
                          const uint32_t *capacities, size_t capacities_len,
                          const uint32_t *car, size_t car_len,
                          uint32_t *figures, size_t figures_len);

/*
 * Enters a probe's car in `train` in the same way; dipped cars may stand in it too. `car` and set as in
 * rack_work_out_probe. Refusals 31, 32, 7 to 13, 16 to 21. With 31 or 32, as with 7 to 11, `train` stays as
 * it was; with 0 and every other refusal it holds the car as rack_train_enter says.
 */
uint32_t rack_train_enter_probe(uint32_t *train, size_t train_len,
                                uint32_t count,
                                const uint32_t *types, size_t types_len,
                                const uint32_t *rows, size_t rows_len,
                                const uint32_t *levels, size_t levels_len,
                                const uint32_t *capacities, size_t capacities_len,
                                const uint32_t *car, size_t car_len,
                                float level, float temperature, float density,
                                uint32_t *figures, size_t figures_len);

/*
 * Strikes the car of a number in `train`, which may be any numbers: the number and what stands beside it
 * are taken out of the four rows, all that stands behind it in a row moves up by one place, free places
 * too, the last place of each row becomes 0, and the masses of an accepted car leave the totals. `number`
 * may be any number, also one that no car may have, where `train` holds it. Refusals 9, 30 (`train` holds
 * no such number); with either `train` stays as it was.
 * 9 says that `train` holds more than sixty numbers or one twice, has more than sixty accepted cars or a
 * total above 12,000,000 kg, or a number of cars or a total, of a grade too, that its cars do not make or
 * that is not the sum of those of the four grades; so a held car of a grade above 4 is 9.
 */
uint32_t rack_train_strike(uint32_t *train, size_t train_len, uint32_t number);

#ifdef __cplusplus
}
#endif

#endif
