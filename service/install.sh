#!/bin/sh
# Installs Debian's packages that the service needs to run over a log, and puts the command `jobhost` on the path.
#
#     service/install.sh [--postgres] [--development] [--missing] [FOLDER [PACKAGE ..]]
#
#     --postgres       installs what the service needs over PostgreSQL as well
#     --development    installs what the tests and the gate need as well, with PostgreSQL
#     --missing        changes nothing: prints the packages that are missing
#     FOLDER           is where the command goes. If it is left out: /usr/local/bin for root, else ~/.local/bin
#     PACKAGE          is installed as well
set -eu
here=$(cd "$(dirname "$0")" && pwd)
packages="python3 python3-aiohttp python3-defusedxml python3-prometheus-client python3-rich"
has_postgres='' is_development='' is_question=''
while :; do
    case ${1:-} in
    --postgres) has_postgres=yes ;;
    --development) has_postgres=yes is_development=yes ;;
    --missing) is_question=yes ;;
    -*) echo "install.sh: $1 is none of --postgres, --development and --missing" >&2 && exit 2 ;;
    *) break ;;
    esac
    shift
done
if [ $# != 0 ]; then
    folder=$1
    shift
elif [ "$(id -u)" = 0 ]; then
    folder=/usr/local/bin
else
    folder=$HOME/.local/bin
fi
[ -z "$has_postgres" ] || packages="$packages python3-asyncpg postgresql"
[ -z "$is_development" ] || packages="$packages python3-pytest python3-pytest-asyncio black flake8 mypy openssl
chromium chromium-driver eslint python3-selenium python3-jsonschema python3-psutil python3-yaml curl git iproute2"
missing=
for package in $packages "$@"; do
    [ "$(dpkg-query -W -f '${db:Status-Status}' "$package" 2>/dev/null || true)" = installed ] || missing="$missing $package"
done
if [ -n "$is_question" ]; then
    echo "$missing"
    exit
fi
if [ -n "$missing" ]; then
    as_root=
    if [ "$(id -u)" != 0 ]; then
        as_root=$(command -v sudo) || { echo "only root can install$missing, and there is no sudo" >&2; exit 1; }
    fi
    $as_root apt-get update -q
    # shellcheck disable=SC2086
    $as_root env DEBIAN_FRONTEND=noninteractive apt-get install -q -y --no-install-recommends $missing
fi
mkdir -p "$folder"
ln -sf "$here/jobhost" "$folder/jobhost"
echo "jobhost is $folder/jobhost"
case ":$PATH:" in
*":$folder:"*) ;;
*) echo "put $folder on the path: export PATH=\"$folder:\$PATH\"" ;;
esac
