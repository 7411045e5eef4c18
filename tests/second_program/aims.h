/* What generated sessions are to reach, counted as the second program runs them: part of second.c where AIMS is defined.
 *
 * SAW(condition, "thing") counts a thing each time its line is run and the condition holds. At the end each thing that was
 * reached is told on standard error, its count first. tests/cases/generator_aims adds up many sessions and takes the list of all
 * things from the texts of the headers here and of second.c, so a new one is a line in the header of its subject, and a new header
 * a line here. Each may use those above it. Ids such as C4 are the rows of docs/MAP.md. */

#include "aims/counting.h"
#include "aims/answers.h"
#include "aims/power_on.h"
#include "aims/conversion.h"
#include "aims/camera.h"
#include "aims/thresholds.h"
#include "aims/offset.h"
#include "aims/samples.h"
#include "aims/reading.h"
#include "aims/bus.h"
#include "aims/longer_transactions.h"
#include "aims/records.h"
#include "aims/tray_answers.h"
#include "aims/tray_packs.h"
#include "aims/tray_line.h"
#include "aims/trays.h"
