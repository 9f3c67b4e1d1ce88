# In place of the number of a majority: all of them.
ALL <- length(MAJORITIES)

board_version <- function() .Call(C_version)

.onLoad <- function(libname, pkgname) {
  if (!.Call(C_processor)) {
    stop("this processor lacks x86-64-v2 (SSE4.2, POPCNT): use a package built from board.c", call. = FALSE)
  }
  if (board_version() != VERSION) {
    stop("the library has version ", board_version(), ", and the package ", VERSION, call. = FALSE)
  }
  .Call(C_words, names(MAJORITIES))
}

# There is no .onUnload: the library stays loaded, since R calls it when it frees a register.
