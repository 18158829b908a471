/* sys/rbtree.h - the types of rbtree(3), and no call */
#ifndef KUPALDIZ_NETBSD_SYS_RBTREE_H
#define KUPALDIZ_NETBSD_SYS_RBTREE_H

#include <stdint.h>

#include <stddef.h>

typedef struct rb_node {
	struct rb_node *rb_nodes[2];
	uintptr_t rb_info;
} rb_node_t;

typedef struct rb_tree {
	rb_node_t *rbt_root;
	const void *rbt_ops;
} rb_tree_t;

#endif
