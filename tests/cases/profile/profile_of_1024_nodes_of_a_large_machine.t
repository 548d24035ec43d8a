1,024 nodes have a profile.

  $ bspemu run programs/one_sync.s --format asm --nodes 1024 --large --profile profile
  $ sha256sum < profile
  81b94f0457de4cf30541452c2d91a7ceea2cb90f590222f4f277ec57dbb3e99c  -
