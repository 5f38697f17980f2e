/* Reads calendars with ical.js, for tools/try_readers.py.

       node ical_js.mjs MODULE WORK

   MODULE is the library as a module of JavaScript. Each line of WORK is the path of a calendar with
   one time zone, and after it moments in seconds from 1970 of the clocks of the zone, as if these
   were UTC, with one space before each. For each line one is printed: the offset at each moment in
   seconds, or `!` and what failed. The library has no names. */

import { readFileSync } from "node:fs";
import { pathToFileURL } from "node:url";

const [module, work] = process.argv.slice(2);
const { default: ICAL } = await import(pathToFileURL(module));

function zoneOf(path) {
  const calendar = new ICAL.Component(ICAL.parse(readFileSync(path, "utf8")));
  return new ICAL.Timezone(calendar.getFirstSubcomponent("vtimezone"));
}

function offsetOf(zone, seconds) {
  const at = new Date(1000 * seconds);
  return zone.utcOffset(
    new ICAL.Time({
      year: at.getUTCFullYear(),
      month: at.getUTCMonth() + 1,
      day: at.getUTCDate(),
      hour: at.getUTCHours(),
      minute: at.getUTCMinutes(),
      second: at.getUTCSeconds(),
    }),
  );
}

for (const line of readFileSync(work, "utf8").split("\n").filter((row) => row)) {
  const [path, ...moments] = line.split(" ");
  try {
    const zone = zoneOf(path);
    console.log(moments.map((moment) => offsetOf(zone, Number(moment))).join(" "));
  } catch (fault) {
    console.log(`! ${fault}`.replaceAll("\n", " "));
  }
}
