# r_replay.R FILE: makes the calls of a file that r_inputs.py writes through welungad_run, by the library all and by the program
# each hundredth, and compares status and text. Prints each difference; ends with status 1 if there is one.
library(welungad)

file <- file(commandArgs(TRUE)[1], "rb")
ways <- welungad:::welungad_ways()
calls <- 0
compared <- c(library = 0, program = 0)
different <- 0

repeat {
  head <- readBin(file, "integer", 5, size = 4, endian = "little")
  if (length(head) == 0) break
  calls <- calls + 1
  words <- strsplit(rawToChar(readBin(file, "raw", head[1])), "\n", fixed = TRUE)[[1]]
  case <- readBin(file, "raw", head[2])
  proof <- readBin(file, "raw", head[3])
  text <- readBin(file, "raw", head[5])
  for (way in ways) {
    if (way == "program" && calls %% 100 != 0) next
    options(welungad.way = way)
    own <- welungad_run(words, case, proof)
    compared[[way]] <- compared[[way]] + 1
    if (own$status != head[4] || !identical(charToRaw(own$text), text)) {
      different <- different + 1
      cat("call", calls, "by the", way, "differs:", words, "status", own$status, "and not", head[4], "\n")
    }
  }
}
close(file)
cat(calls, "calls;", compared[["library"]], "by the library,", compared[["program"]], "by the program;", different, "differences\n")
quit(status = as.integer(different > 0))
