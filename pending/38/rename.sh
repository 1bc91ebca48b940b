#!/usr/bin/env bash
# rename.sh [FOLDER]: gives every macro of include/pfcp_session.h the library's own prefix, PFCP_SESSION_, in all files of a checkout that git knows or
# would add; word by word, so that it may be run again. Environment variables (PFCP_STAND_IN, PFCP_ARCHIVE_DIR, PFCP_ARCHIVE_NAME, PFCP_PLANT, PFCP_LIST,
# PFCP_CAPTURES, PFCP_UNIT_OPTIONS) are no macros and stay. Afterwards the C files that changed are laid out again, and the manual page's example is made
# anew (make docs), where these tools are there.
set -eu
cd "${1:-.}"
[ -f include/pfcp_session.h ] || { printf 'rename: %s has no include/pfcp_session.h\n' "$PWD" >&2; exit 2; }

# Those of the header at 0.9.0, and those that another branch may have written without the prefix.
names='VERSION_MAJOR VERSION_MINOR VERSION_PATCH VERSION VERSION_NUMBER PEERS LEAST_SESSIONS MOST_SESSIONS LONGEST_TABLE REPLY_SPACE LONGEST_REQUEST
    STORE_LENGTH LONGEST_RESTORATION ANSWERED BROKEN_TABLE SMALL_REPLY_SPACE LONG_MESSAGE WRONG_HEADER NOT_SERVED OLD_NUMBER NO_PEER WRITTEN
    PAST_LAST_SESSION NO_PLANE_ADDRESS SMALL_SPACE FOUND NONE
    SETTINGS_NUMBERS SETTINGS_IPV4 SETTINGS_FIRST_TEID SETTINGS_POOL_SIZE SETTINGS_FIRST_ADDRESS SETTINGS_ADDRESS_COUNT SETTINGS_SESSION_LIMIT
    SETTINGS_STRICT SETTINGS_ADDRESS1 SETTINGS_GUARANTEE1 SETTINGS_LIMIT1 SETTINGS_ADDRESS2 SETTINGS_GUARANTEE2 SETTINGS_LIMIT2 IPV6_LENGTH
    SMALL_SETTINGS CHANGE_WORDS WENT CAME TEID ADDRESS PDR ENDPOINT CHANGES_WRITTEN OTHER_SETTINGS SMALL_CHANGES CHANGES_PER_SESSION MOST_CHANGES'
program=
for name in $names; do
    program+="s/\\bPFCP_$name\\b/PFCP_SESSION_$name/g;"
done

changed=()
while IFS= read -r -d '' file; do
    if [ ! -f "$file" ] || [ -L "$file" ] || ! grep -qI 'PFCP_' "$file"; then
        continue
    fi
    old=$(cat "$file" && printf x)
    new=$(sed "$program" "$file" && printf x)
    if [ "$new" != "$old" ]; then
        printf '%s' "${new%x}" >"$file"
        changed+=("$file")
    fi
done < <(git ls-files -z --cached --others --exclude-standard | sort -zu)
printf 'renamed in %s files\n' "${#changed[@]}"

if [ "${#changed[@]}" -gt 0 ] && command -v clang-format >/dev/null 2>&1; then
    for file in "${changed[@]}"; do
        case $file in
        *.c | *.h) clang-format -i "$file" ;;
        esac
    done
fi
if [ "${#changed[@]}" -gt 0 ] && grep -qs 'def manual_page' scripts/docs; then
    scripts/docs || printf 'rename: make docs says that something is wrong; see above\n' >&2
fi
