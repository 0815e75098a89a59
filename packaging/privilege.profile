# Where `privilege check` and `privilege admin` find the sockets of the service, but for who has said another place.
export PRIVILEGE_DIR="${PRIVILEGE_DIR-/run/privilege}"
