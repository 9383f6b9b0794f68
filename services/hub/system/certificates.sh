#!/bin/sh
# Makes an authority and certificates for sites and clients of a hub, for a trial or for a hub without an authority of its own.
#
# Usage: certificates.sh FOLDER NAME [OTHER-NAME ..]
#
# FOLDER/authority.crt and authority.key are made if they are not there. NAME.key and NAME.crt are made of it: NAME is a name in the
# certificate (DNS:NAME in the file of roles), and so is each other name. An address such as 127.0.0.1 is one as well. Keep authority.key away
# from the sites: who has it can be anyone. A certificate lasts 397 days, and the authority ten years.
set -eu
umask 077
if [ $# -lt 2 ]; then
    sed -n '2,8p' "$0" | cut -c 3- >&2
    exit 2
fi
folder=$1 name=$2
shift
case $name in
    authority | */* | -* | .* | *,*) echo "certificates.sh: $name is no name of a certificate" >&2; exit 2 ;;
esac
mkdir -p "$folder"
if [ ! -e "$folder/authority.key" ]; then
    openssl req -x509 -newkey ec -pkeyopt ec_paramgen_curve:P-256 -nodes -days 3650 -subj "/CN=Authority of a hub" \
        -addext "basicConstraints=critical,CA:TRUE,pathlen:0" -addext "keyUsage=critical,keyCertSign,cRLSign" \
        -keyout "$folder/authority.key" -out "$folder/authority.crt" 2>/dev/null
fi
names=
for one in "$@"; do
    case $one in
        *[!0-9.]*) names="$names,DNS:$one" ;;
        *) names="$names,IP:$one" ;;
    esac
done
openssl req -newkey ec -pkeyopt ec_paramgen_curve:P-256 -nodes -subj "/CN=$name" -keyout "$folder/$name.key" \
    -out "$folder/$name.csr" 2>/dev/null
printf 'subjectAltName=%s\nextendedKeyUsage=serverAuth,clientAuth\nbasicConstraints=CA:FALSE\nkeyUsage=digitalSignature\n' "${names#,}" > "$folder/$name.ext"
openssl x509 -req -in "$folder/$name.csr" -CA "$folder/authority.crt" -CAkey "$folder/authority.key" -CAcreateserial -days 397 \
    -extfile "$folder/$name.ext" -out "$folder/$name.crt" 2>/dev/null
rm "$folder/$name.csr" "$folder/$name.ext"
echo "$folder/$name.crt"
