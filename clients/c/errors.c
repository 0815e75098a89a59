#include "privilege.h"

const char *privilege_error_text(enum privilege_error error) {
    switch (error) {
    case PRIVILEGE_OK:
        return "done";
    case PRIVILEGE_INVALID:
        return "an argument has not the form that it has to have";
    case PRIVILEGE_MEMORY:
        return "out of memory";
    case PRIVILEGE_BUSY:
        return "another call with this handle is under way";
    case PRIVILEGE_UNAVAILABLE:
        return "the service cannot be reached";
    case PRIVILEGE_FORBIDDEN:
        return "this user may not open the socket";
    case PRIVILEGE_TIMEOUT:
        return "the time limit passed";
    case PRIVILEGE_BAD_REPLY:
        return "what came is no reply to what was sent";
    case PRIVILEGE_OLDER:
        return "the reply is older than a commit that was acknowledged";
    case PRIVILEGE_NOT_RESOLVED:
        return "an agent would have to be asked";
    case PRIVILEGE_NO_AGENT:
        return "no agent of this kind is there";
    case PRIVILEGE_AGENT_GONE:
        return "the agent left before it answered";
    case PRIVILEGE_AGENT_FULL:
        return "no more questions can be put to an agent";
    case PRIVILEGE_REFUSED:
        return "the command breaks a rule, and changed nothing";
    case PRIVILEGE_STORE_FAULT:
        return "the disk of the service failed, and whether the command was accepted is not known";
    case PRIVILEGE_STORE_DAMAGED:
        return "the store of the service is damaged";
    case PRIVILEGE_UNKNOWN:
        return "the connection ended, and whether the command was accepted is not known";
    case PRIVILEGE_KIND_TAKEN:
        return "another agent of this kind is there";
    case PRIVILEGE_ENDED:
        return "the service ended the connection";
    case PRIVILEGE_TOO_LONG:
        return "the command is longer than a frame may be";
    case PRIVILEGE_WAITING:
        return "the reply has not come yet";
    case PRIVILEGE_WITHDRAWN:
        return "nobody waits for the answer to the question any more";
    }
    return "no error of this library";
}
