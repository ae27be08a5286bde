"""Several hubs of one team: one leads, the others stand by, and what the leader answers is in etcd first.

    layout    the keys and values in etcd
    mirror    a hub's folder, as far as it has what etcd has
    tail      what the program has added to its files
    reign     who leads, under which term, and for how long by its lease
    putting   the leader's replies are held until etcd has what came of them
    merging   many small keys become few
    copying   the others copy, until nobody leads
    door      where they listen, and answer who leads
    founding  how a team begins in etcd, and goes on in one that was restored
    member    a hub from its start to its end, in either part
    telling   who leads, and how far each hub is
"""
