#!/usr/bin/env python3
"""installer.py SOCKET APPLICATION PRIVILEGE..: lets the application use these privileges, and no others, for all."""
import sys

import privilege

path, application, *names = sys.argv[1:]
policies = [privilege.Policy("", application, "*", name, privilege.Result.ALLOW) for name in names]
try:
    with privilege.Admin(path) as admin:
        admin.erase("", application)
        commit = admin.set(*policies)
        for row in admin.list("", application):
            print(row.key.client, row.key.user, row.key.privilege, row.result)
        print("commit", commit)
except privilege.PrivilegeError as error:
    sys.exit(f"installer: {error}")
