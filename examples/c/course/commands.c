/* A shell that takes its commands from a text: words are cut, a child becomes the program, and its code is told. */
#include <errno.h>
#include <stdio.h>
#include <stdlib.h>
#include <string.h>
#include <sys/wait.h>
#include <unistd.h>

int main(int argc, char **argv)
{
	char commands[] = "say good morning; nothing here ;say it;exit 3";
	char *rest, *command, *word, *words[8], *between;
	int many, status;
	pid_t child;

	if (argc > 1)
		return argc;
	printf("%s begins\n", strrchr(argv[0], '/') ? strrchr(argv[0], '/') + 1 : argv[0]);
	for (command = strtok_r(commands, ";", &rest); command; command = strtok_r(NULL, ";", &rest)) {
		many = 0;
		for (word = strtok_r(command, " ", &between); word && many < 7; word = strtok_r(NULL, " ", &between))
			words[many++] = word;
		words[many] = NULL;
		if (strcmp(words[0], "exit") == 0)
			exit(atoi(words[1]));
		fflush(stdout);
		child = fork();
		if (child == 0) {
			execvp(strcmp(words[0], "say") == 0 ? argv[0] : "./no-such-program", words);
			printf("%s: %s\n", words[0], strerror(errno));
			exit(127);
		}
		if (waitpid(child, &status, 0) == child)
			printf("%s with %d words: code %d\n", words[0], many, WEXITSTATUS(status));
	}
	return 0;
}
