#!/bin/sh
# build.sh FOLDER: makes niluppang.jar in a folder, by javac alone. It needs a JDK from version 17 on, and Debian's package libjna-java.
set -eu
here=$(dirname -- "$0")
folder=${1:?build.sh: the folder for niluppang.jar is missing}
jna=${JNA:-/usr/share/java/jna.jar}
[ -f "$jna" ] || { echo "build.sh: there is no $jna: apt-get install libjna-java, or name it by JNA" >&2; exit 2; }
classes=$(mktemp -d)
trap 'rm -rf "$classes"' EXIT
javac --release 17 -Xlint:all -Werror -encoding UTF-8 -cp "$jna" -d "$classes" "$here"/src/niluppang/*.java
jar --create --file "$folder/niluppang.jar" -C "$classes" niluppang
