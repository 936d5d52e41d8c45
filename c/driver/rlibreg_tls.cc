/* A plugin that makes gcc emulate thread-local data, as gcc does for systems that have no such data:
 * code calls `__emutls_get_address` for each access. `rlibreg-gcc` passes the plugin to gcc.
 *
 * Copyright 2026 The authors of rlibreg.
 *
 * This file is free software: you can redistribute it and/or modify it under the terms of the GNU General
 * Public License as published by the Free Software Foundation, either version 3 of the License, or (at
 * your option) any later version. It is distributed in the hope that it will be useful, but WITHOUT ANY
 * WARRANTY; without even the implied warranty of MERCHANTABILITY or FITNESS FOR A PARTICULAR PURPOSE. See
 * the GNU General Public License for more details: <https://www.gnu.org/licenses/>.
 *
 * No other file of rlibreg is under this license. gcc loads no other file of rlibreg. */
#include "gcc-plugin.h"
#include "plugin-version.h"
#include "tm.h"
#include "target.h"

int plugin_is_GPL_compatible;

/* The layout of `targetm` is that of one release of gcc. */
int plugin_init(struct plugin_name_args *, struct plugin_gcc_version *version) {
    if (strcmp(version->basever, gcc_version.basever)) return 1;
    targetm.have_tls = false;
    return 0;
}
