/* The calls of Cynara's library for administrators, over libprivilege. A new text, after Cynara's public documents. */
#ifndef CYNARA_ADMIN_H
#define CYNARA_ADMIN_H

#include <cynara-error.h>

#ifdef __cplusplus
extern "C" {
#endif

/* In place of a name: any name, as it stands in a policy; in a filter any key field, the wildcard among them. */
#define CYNARA_ADMIN_WILDCARD "*"
#define CYNARA_ADMIN_ANY "#"
/* The root bucket. */
#define CYNARA_ADMIN_DEFAULT_BUCKET ""

/* Results of policies, and what is done to a policy or a bucket. */
#define CYNARA_ADMIN_DELETE (-1)
#define CYNARA_ADMIN_DENY 0
#define CYNARA_ADMIN_NONE 1
#define CYNARA_ADMIN_BUCKET 0xFFFE
#define CYNARA_ADMIN_ALLOW 0xFFFF

typedef struct cynara_admin cynara_admin;

struct cynara_admin_policy {
    char *bucket;
    char *client;
    char *user;
    char *privilege;
    int result;
    char *result_extra; /* with CYNARA_ADMIN_BUCKET the bucket; of an agent's kind its metadata; or NULL */
};

struct cynara_admin_policy_descr {
    int result;
    char *name;
};

int cynara_admin_initialize(struct cynara_admin **handle);
int cynara_admin_finish(struct cynara_admin *handle);

/* All policies of the list, which a NULL ends, in one commit, or none. */
int cynara_admin_set_policies(struct cynara_admin *handle, const struct cynara_admin_policy *const *policies);
/* The operation is CYNARA_ADMIN_DELETE, or the fallback of the bucket. */
int cynara_admin_set_bucket(struct cynara_admin *handle, const char *bucket, int operation, const char *extra);
/* The caller frees what is put into result_extra, which may be NULL. */
int cynara_admin_check(struct cynara_admin *handle, const char *start_bucket, const int recursive, const char *client,
    const char *user, const char *privilege, int *result, char **result_extra);
/* The caller frees the list, which a NULL ends, its policies, and their texts. */
int cynara_admin_list_policies(struct cynara_admin *handle, const char *bucket, const char *client, const char *user,
    const char *privilege, struct cynara_admin_policy ***policies);
/* METHOD_NOT_SUPPORTED if it is recursive. */
int cynara_admin_erase(struct cynara_admin *handle, const char *start_bucket, int recursive, const char *client,
    const char *user, const char *privilege);
/* The caller frees the list, which a NULL ends, its rows, and their names: "Deny" and "Allow". */
int cynara_admin_list_policies_descriptions(
    struct cynara_admin *handle, struct cynara_admin_policy_descr ***descriptions);

#ifdef __cplusplus
}
#endif
#endif
