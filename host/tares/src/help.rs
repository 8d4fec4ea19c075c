//! The commands with their options and help.

pub struct Usage {
    pub name: &'static str,
    /// The options that take a number.
    pub numbers: &'static [&'static str],
    /// The options that stand alone.
    pub flags: &'static [&'static str],
    pub help: &'static str,
}

const SETTINGS: [&str; 4] = ["--n", "--p", "--layout", "--copies"];

/// Those of the options that take several numbers, with commas between them.
pub const SEVERAL: [&str; 1] = ["--lost"];

const SIZE_OPTIONS: [&str; 6] = ["--lines", "--n", "--p", "--layout", "--copies", "--in"];

pub const COMMANDS: [Usage; 12] = [
    Usage { name: "check", numbers: &SETTINGS, flags: &["--all"], help: CHECK },
    Usage { name: "build", numbers: &SETTINGS, flags: &[], help: BUILD },
    Usage { name: "read", numbers: &SETTINGS, flags: &["--force"], help: READ },
    Usage { name: "import", numbers: &[], flags: &[], help: IMPORT },
    Usage { name: "add", numbers: &SETTINGS, flags: &[], help: ADD },
    Usage { name: "remove", numbers: &SETTINGS, flags: &[], help: REMOVE },
    Usage { name: "size", numbers: &SIZE_OPTIONS, flags: &[], help: SIZE },
    Usage { name: "mean", numbers: &SETTINGS, flags: &["--compare"], help: MEAN },
    Usage { name: "lookup", numbers: &["--tune-in"], flags: &[], help: LOOKUP },
    Usage { name: "table", numbers: &[], flags: &[], help: TABLE },
    Usage { name: "follow", numbers: &["--tune-in", "--lost"], flags: &[], help: FOLLOW },
    Usage { name: "show", numbers: &[], flags: &[], help: SHOW },
];

pub const VERSION: &str = concat!("tares ", env!("CARGO_PKG_VERSION"), "\n");

pub const HELP: &str = "\
Tare lists on air: a list built into a cycle of buckets, and tags looked up in it.

Usage: tares COMMAND ...

  check   tell whether an image is the cycle of a list, and where it is not
  build   build a list into a cycle
  read    read a cycle back to its list
  import  make a list from a CSV file
  add     put a line into a list, and build the list's cycle
  remove  take a line out of a list, and build the list's cycle
  size    tell the size of a cycle before there is a list
  mean    tell the mean wait of a list's tags
  lookup  look a tag up in a cycle from one tune-in
  table   look a tag up in a cycle from every tune-in
  follow  follow a display through a cycle, bucket by bucket
  show    show buckets in words

tares help COMMAND tells more of a command; tares --version tells the version.

A file is given by name, or as - for standard input or output; behind -- a name
may begin with -. An output file is written whole or not at all. Results go to
standard output, messages to standard error. Buckets, segments and places count
from 0 as in document 01; lines count from 1 as in an editor, and so do the
entries, control pairs and lines of a bucket.

Exit status: 0 done or right, 1 refused or wrong, 2 wrong use or a file that
cannot be read or written.
";

const CHECK: &str = "\
Tells whether an image is the cycle of a list. The list is built afresh and every
byte compared. If the image is right, every display that hears it intact and ends
in it gets exactly the lines of its tag, whatever the tag and from every tune-in.
If it is wrong, the buckets that differ are told, field by field; and if it is the
right cycle of another list, the lines that differ.

Usage: tares check LIST IMAGE [--n N] [--p P] [--layout L] [--copies C] [--all]

  LIST        the list that should be on air, with leading zeros or without
  IMAGE       what is on air
  --n, --p, --layout, --copies
              the settings, as in tares build; those left out are sought, and
              all that fit are told
  --all       tell every difference, not only the first ones

Exit status: 0 right, 1 wrong or refused.
";

const BUILD: &str = "\
Builds a list into a cycle and prints the number of lines and of buckets.

Usage: tares build LIST IMAGE --n N --p P --layout L --copies C

  LIST        lines of 27 bytes, at most 40,000: tag (10 columns), tare in kg (6),
              material code (4), weighing number (6), newline; tags never fall;
              blanks or zeros before a number, which make no difference on air
  IMAGE       where the cycle goes: buckets of 240 bytes, at most 99,999
  --n N       entries for an index bucket, 2 to 8
  --p P       lines for a data bucket, 1 to 8
  --layout L  1 distributed, 2 (1,m)
  --copies C  layout 1: levels sent again, 0 to 4 and below the index levels
              layout 2: parts, 1 to the number of data buckets

If the image goes to standard output, the numbers go to standard error.
";

const READ: &str = "\
Reads a cycle back to its list and prints the number of lines and of buckets. A
cycle is accepted exactly if some list and these settings build it.

Usage: tares read IMAGE OUT --n N --p P --layout L --copies C [--force]

  IMAGE       the cycle
  OUT         where its list goes, without leading zeros; a file that is there
              and differs is kept
  --n, --p, --layout, --copies
              the settings that built it, as in tares build
  --force     replace OUT even if it differs

To hold an image against your own list, use tares check. If the list goes to
standard output, the numbers go to standard error.
";

const IMPORT: &str = "\
Makes a list from a CSV file: sorted by tag, in the file's order within a tag.

Usage: tares import CSV LIST

  CSV   a header line that names the columns tag, tare, material and weighing
        number in any order, then one line for each line of the list; commas,
        semicolons or tabs between the columns; other columns are left out
  LIST  where the list goes

Lines that cannot be taken are told with their number and left out of the list;
the exit status is then 1.
";

const ADD: &str = "\
Puts a line into a list, behind all lines of its tag, and builds the changed list
into a cycle. Prints where the line stands, the number of lines and of buckets, the
index levels k and the data buckets D.

Usage: tares add LIST IMAGE TAG TARE MATERIAL WEIGHING --n N --p P --layout L --copies C

  LIST      the list, which is changed
  IMAGE     where the changed list's cycle goes, whatever is there
  TAG       the number on a skip or lorry, 0 to 4294967295
  TARE      its empty weight in kg, 0 to 99999
  MATERIAL  the material code, 0 to 9999
  WEIGHING  the weighing number, 0 to 999999
  --n, --p, --layout, --copies
            the settings, as in tares build, for the changed list

Both files are written beside their places first; then the image gets its place, and
last the list. As long as the list is the former one, the same command once more
changes both; where both are changed already a message says so. Commands that change
lists in one folder wait for each other, where its file system can lock. If LIST is
- the changed list goes to standard output.
";

const REMOVE: &str = "\
Takes a line out of a list, the first with the four numbers given, and builds the
changed list into a cycle. Prints where the line stood, the number of lines and of
buckets, the index levels k and the data buckets D.

Usage: tares remove LIST IMAGE TAG TARE MATERIAL WEIGHING --n N --p P --layout L --copies C

  LIST      the list, which is changed
  IMAGE     where the changed list's cycle goes, whatever is there
  TAG, TARE, MATERIAL, WEIGHING
            the line's numbers; leading zeros make no difference
  --n, --p, --layout, --copies
            the settings, as in tares build, for the changed list

The files are written as by tares add.
";

const SIZE: &str = "\
Tells the size of the cycle of any list of so many lines; nothing is built. Prints the
index levels k, the data buckets D, the buckets of the cycle N, the bytes of its image,
and the most buckets that a display hears for a tag.

Usage: tares size --lines LINES --n N --p P [--layout L --copies C] [--in B]

  --lines LINES
              the lines of the list
  --n, --p, --layout, --copies
              the settings, as in tares build; without layout and copies a table is
              printed, with a row for each number of copies that layout 1 allows, and
              for 1, 2, 4, 8 and so on in layout 2
  --in B      the data buckets that have the tag, 1 if not given; more than D count
              as D
";

const MEAN: &str = "\
Tells the mean wait of a list: the buckets that go by until a display has its lines,
over every tune-in and every different tag. Prints their sum, the number of hearings
that divides it, the quotient and the remainder, and the mean with two decimals,
rounded down. Nothing is built.

Usage: tares mean LIST --n N --p P [--layout L --copies C] [--compare]

  LIST       the list, with leading zeros or without
  --n, --p, --layout, --copies
             the settings, as in tares build; without layout and copies a table is
             printed, with a row for each number of copies that layout 1 allows, and
             for 1, 2, 4, 8 and so on in layout 2
  --compare  the table also where layout and copies are given, which then have a row
";

const LOOKUP: &str = "\
Listens for a tag from one tune-in bucket on. Prints found or absent, the buckets
heard, the buckets gone by, and the lines of the tag.

Usage: tares lookup IMAGE TAG --tune-in T [OUT]

  IMAGE        the cycle, taken as repeated
  TAG          the number on a skip or lorry
  --tune-in T  the first bucket heard, from 0
  OUT          where the lines go; without it they are printed below the rest

If OUT is standard output, the rest goes to standard error.
";

const TABLE: &str = "\
Listens for a tag from every tune-in bucket. Prints one line for each: tune-in,
heard, elapsed and the number of lines, 6 columns each.

Usage: tares table IMAGE TAG

  IMAGE  the cycle, taken as repeated
  TAG    the number on a skip or lorry
";

const FOLLOW: &str = "\
Follows a display that listens for a tag: each bucket that it hears, what the
bucket tells it, and the lines it gets.

Usage: tares follow IMAGE TAG --tune-in T
       tares follow IMAGE TAG --tune-in T --lost X,Y,..

  IMAGE        the cycle, taken as repeated
  TAG          the number on a skip or lorry
  --tune-in T  the first bucket heard, from 0
  --lost X,Y,..
               these buckets are lost, each when the display first wakes for it, and
               once more for each time that it is named again
";

const SHOW: &str = "\
Shows buckets in words, field by field with their columns.

Usage: tares show IMAGE [BUCKET | FROM-TO]

  IMAGE    the cycle
  BUCKET   a bucket, from 0
  FROM-TO  these buckets, both included

Without a bucket, all buckets are listed, a line for each.
";
