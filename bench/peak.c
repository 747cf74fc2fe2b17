/* Runs a program, and prints on standard error the most kilobytes that its process held. The process is begun from here, since one
   that is begun from Python tells at least what Python held. */
#include <stdio.h>
#include <sys/resource.h>
#include <sys/wait.h>
#include <unistd.h>

int main(int count, char **words) {
  if (count < 2) return 2;
  pid_t job = fork();
  if (job == 0) {
    execv(words[1], words + 1);
    _exit(127);
  }
  int status;
  struct rusage usage;
  if (job < 0 || wait4(job, &status, 0, &usage) != job) return 2;
  fprintf(stderr, "%ld\n", usage.ru_maxrss);
  return WIFEXITED(status) ? WEXITSTATUS(status) : 1;
}
