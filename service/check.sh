#!/bin/sh
# The gate's part of the service: layout and types, of its figures in benches/ too, the console by eslint, and the tests with real
# PostgreSQL servers and worker processes.
#
#     service/check.sh [WORDS OF PYTEST ..]
#
# The program is JOBHOST_BATCHCTL, else crates/batchctl/out/batchctl. service/install.sh --development installs what is needed.
set -eu
cd "$(dirname "$0")"
: "${JOBHOST_BATCHCTL:=$PWD/../crates/batchctl/out/batchctl}"
export JOBHOST_BATCHCTL
python=/usr/bin/python3
figures="../benches/service_calls.py ../benches/waiting_slots.py ../benches/console_lists.py ../benches/console_tabs.py"
figures="$figures ../benches/sql_repository.py ../benches/kept_nights.py ../benches/fleet.py ../benches/verify_chain.py"
figures="$figures ../benches/write_counts.py ../benches/counted_service.py ../benches/lean_client.py"
# shellcheck disable=SC2086
$python -m flake8 . $figures
# shellcheck disable=SC2086
$python -m black --config pyproject.toml --check -q . $figures
# Only Debian's own Node.js finds Debian's modules untold. The usual format of eslint needs a package more.
NODE_PATH=/usr/share/nodejs eslint --format unix job_host/service/console tests
# shellcheck disable=SC2086
MYPYPATH=tests:.:../benches $python -m mypy job_host tests ./*.py $figures
$python -m pytest -q "$@"
