<?php
/* Reads calendars with sabre/vobject, for tools/try_readers.py.

       php sabre.php WORK

   Each line of WORK is the path of a calendar with one time zone, and after it moments in seconds
   from 1970 with one space before each. For each line one is printed: offset in seconds and name at
   each moment, with `/` between, or `!` and what failed. */

require '/usr/share/php/Sabre/VObject/autoload.php';

use Sabre\VObject\Reader;
use Sabre\VObject\TimeZoneUtil;

function answer($path, $moments)
{
    $calendar = Reader::read(file_get_contents($path));
    $name = (string) $calendar->VTIMEZONE->TZID;
    $zone = TimeZoneUtil::getTimeZone($name, $calendar, true);
    $states = [];
    foreach ($moments as $moment) {
        $time = (new DateTime('@' . $moment))->setTimezone($zone);
        $states[] = $time->getOffset() . '/' . $time->format('T');
    }
    return implode(' ', $states);
}

error_reporting(E_ALL & ~E_DEPRECATED);
foreach (new SplFileObject($argv[1]) as $line) {
    $words = preg_split('/\s+/', trim($line));
    if ($words[0] === '') {
        continue;
    }
    try {
        echo answer($words[0], array_slice($words, 1)), "\n";
    } catch (Throwable $fault) {
        echo '! ', str_replace("\n", ' ', $fault->getMessage()), "\n";
    }
}
