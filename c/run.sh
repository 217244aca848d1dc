#!/bin/sh
# Builds the archive, compiles the examples against it and compares what they print: a program to start from, against the archive and, where there is pkg-config, as
# installed; the call that README.md shows; document 01's listing; the line at the semaphore, what a task takes, the lowest readings, the windows, the small profile,
# the start values and the reruns of document 02, 2.4, 2.7, 2.11, 2.14, 2.10, 2.12 and 2.13.
set -e
cd "$(dirname "$0")/.."
tools/staticlib rikzord
mkdir -p target/c
gcc -std=c99 -Wall -Wextra -Werror -Iinclude -o target/c/first c/first.c target/staticlib/librikzord.a
printf 'refused 0; core 0 in mode 0, cycles complete 1, takings 2\n' > target/c/expected
target/c/first | diff - target/c/expected
echo "c: the program to start from runs"
if command -v pkg-config > /dev/null; then
    rm -rf target/c/prefix
    ./install.sh target/c/prefix --library > /dev/null
    export PKG_CONFIG_PATH="$PWD/target/c/prefix/lib/pkgconfig"
    (cd target/c && gcc -std=c99 -Wall -Wextra -Werror -o installed "$OLDPWD/c/first.c" $(pkg-config --cflags --libs rikzord))
    target/c/installed | diff - target/c/expected
    echo "c: it runs with the flags of the installed rikzord.pc"
fi
awk '/^```c$/ { inside = 1; next } /^```$/ { inside = 0 } inside' README.md > target/c/readme.c
gcc -std=c99 -Wall -Wextra -Werror -Iinclude -o target/c/readme target/c/readme.c target/staticlib/librikzord.a
printf 'refused 0, cycles complete 1\n' > target/c/expected
target/c/readme | diff - target/c/expected
echo "c: the call of README.md runs"
gcc -std=c11 -Wall -Wextra -Werror -Iinclude -o target/c/listing c/listing.c target/staticlib/librikzord.a
printf 'core mode cycles flags count\n0 0 1 0 1\norder 0r 0w\n' > target/c/expected
target/c/listing | diff - target/c/expected
echo "c: the listing is document 01's"
gcc -std=c99 -Wall -Wextra -Werror -Iinclude -o target/c/lowest c/lowest.c target/staticlib/librikzord.a
printf '0 e4 02 cf 02 cf 02 aa aa\n28 29 30\n' > target/c/expected
target/c/lowest | diff - target/c/expected
echo "c: the lowest readings are those of document 02"
gcc -std=c99 -Wall -Wextra -Werror -Iinclude -o target/c/window c/window.c target/staticlib/librikzord.a
printf '0 aa\n0 ef\n34 34 21 77\n' > target/c/expected
target/c/window | diff - target/c/expected
echo "c: the windows are those of document 02"
gcc -std=c99 -Wall -Wextra -Werror -Iinclude -o target/c/takes c/takes.c target/staticlib/librikzord.a
printf '25 21\n0 30 1024 2 1/0 7/1 8/9\n' > target/c/expected
target/c/takes | diff - target/c/expected
echo "c: what a task takes is that of document 02"
gcc -std=c99 -Wall -Wextra -Werror -Iinclude -o target/c/fair c/fair.c target/staticlib/librikzord.a
cat > target/c/expected <<'END'
0: 0 holder 1 line next 0 1
1: 0 holder 1 line 1 next 0 0
1: 0 holder 1 line 1 next 0 0
0: 0 holder 0 line 1 next 0 1
0: 0 holder 0 line 1 next 0 1
0: 0 holder 0 line 1 0 next 0 1
1: 0 holder 2 line 0 next 0 1
0: 23 holder 2 line 0 0 next 23 0
0: 23 holder 2 line 0 0 0 0 next 23 0
END
target/c/fair | diff - target/c/expected
echo "c: the line at the semaphore is that of document 02"
gcc -std=c99 -Wall -Wextra -Werror -Iinclude -o target/c/small c/small.c target/staticlib/librikzord.a
printf '0 0, 0 0\n0 3, 0 3\n0 0, 0 0\n0 27, 0 27\n0 0, 0 0\n0 27, 0 27\n27 27 a5 a5 a5 a5\n' > target/c/expected
target/c/small | diff - target/c/expected
echo "c: the small profile is that of document 02"
gcc -std=c99 -Wall -Wextra -Werror -Iinclude -o target/c/forms c/forms.c target/staticlib/librikzord.a
printf '0 data 0 0 44 1 0 0 0 0 0 0 0 0 0 8 shared 0 44 1 0\n0 40 32 ab\n0 36 0\n2 32 21 77\n' > target/c/expected
target/c/forms | diff - target/c/expected
echo "c: start values and both forms of a file are those of document 02"
gcc -std=c99 -Wall -Wextra -Werror -Iinclude -o target/c/rerun c/rerun.c target/staticlib/librikzord.a
cat > target/c/expected <<'END'
0 ; 0 1 0 1 ; 9 2313 9 2313 ; 0 0 ; 0 9 9 9 9 9 9 9 ; 0 0 ; 9
0 ; 0 0 4 0 ; 0 0 4 0 ; 0 0 ; 0 0 0 0 0 0 0 0 ; 0 0 ; 9
0 ; 3 0 4 2 ; 0 0 4 0 ; 0 0 ; 0 1 0 0 0 0 0 0 ; 0 0 ; 9
0 ; 0 2 0 2 ; 5 0 6 1 ; 0 0 ; 0 1 0 0 5 1 0 0 ; 1 0 ; 9
0 ; 0 2 0 2 ; 5 0 6 1 ; 0 0 ; 0 1 0 0 5 0 0 0 ; 1 0 ; 9
33 ; 9 2313 9 2313 ; 9 2313 9 2313 ; 9 9 ; 9 9 9 9 9 9 9 9 ; 9 9 ; 9
33 ; 9 2313 9 2313 ; 9 2313 9 2313 ; 9 9 ; 9 9 9 9 9 9 9 9 ; 9 9 ; 9
33 ; 9 2313 9 2313 ; 9 2313 9 2313 ; 9 9 ; 9 9 9 9 9 9 9 9 ; 9 9 ; 9
22 ; 9 2313 9 2313 ; 9 2313 9 2313 ; 9 9 ; 9 9 9 9 9 9 9 9 ; 9 9 ; 9
21 ; 9 2313 9 2313 ; 9 2313 9 2313 ; 9 9 ; 9 9 9 9 9 9 9 9 ; 9 9 ; 9
1 ; 9 2313 9 2313 ; 9 2313 9 2313 ; 9 9 ; 9 9 9 9 9 9 9 9 ; 9 9 ; 9
END
target/c/rerun | diff - target/c/expected
echo "c: the reruns are those of document 02"
