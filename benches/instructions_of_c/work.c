/* Work for the machine as gcc compiles it: a sieve, a hash over a table, a sort, greatest common divisors. */
typedef unsigned int word;

enum { FLAGS = 8191, ENTRIES = 4096, ITEMS = 1024, DIVISORS = 500 };

static unsigned char is_prime[FLAGS];
static word table[ENTRIES];
static word items[ITEMS];

static word sieve(void)
{
    word primes = 0;
    for (word i = 0; i < FLAGS; i++)
        is_prime[i] = 1;
    for (word i = 0; i < FLAGS; i++) {
        if (!is_prime[i])
            continue;
        word prime = i + i + 3;
        for (word k = i + prime; k < FLAGS; k += prime)
            is_prime[k] = 0;
        primes++;
    }
    return primes;
}

static word hash(word seed)
{
    word sum = seed;
    for (word i = 0; i < ENTRIES; i++) {
        sum = (sum ^ table[i]) * 16777619u;
        sum = sum << 13 | sum >> 19;
        table[sum >> 7 & (ENTRIES - 1)] += sum;
    }
    return sum;
}

static void sort(void)
{
    for (word gap = ITEMS / 2; gap; gap /= 2)
        for (word i = gap; i < ITEMS; i++) {
            word item = items[i], at = i;
            for (; at >= gap && items[at - gap] > item; at -= gap)
                items[at] = items[at - gap];
            items[at] = item;
        }
}

static word common_divisor(word a, word b)
{
    while (b) {
        word rest = a % b;
        a = b;
        b = rest;
    }
    return a;
}

word work(word rounds)
{
    word sum = 0;
    for (word round = 0; round < rounds; round++) {
        sum += sieve();
        sum ^= hash(sum + round);
        for (word i = 0; i < ITEMS; i++)
            items[i] = table[(i * 7 + round) & (ENTRIES - 1)];
        sort();
        sum += items[ITEMS / 2];
        for (word i = 1; i < DIVISORS; i++)
            sum += common_divisor(table[i] | 1, items[i] | 1);
    }
    return sum;
}
