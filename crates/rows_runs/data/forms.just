# settings, variables and other files
set dotenv-load
set export := true
set shell := ['bash', '-uc']
set working-directory := 'build' / 'out'
import? 'more.just'
mod? tools 'tools/mod.just'

version := '1.2.3'
export target := env('TARGET', 'release')
name := if target == 'release' { 'app' } else if target == "debug" { "app-debug" } else { x'$NAME' }
path := / 'opt' / name + '-' + version
notes := '''
    first
      second
'''
unexport TOKEN
alias b := build

# build the program
[group: 'build']
[doc('builds'), no-cd]
build mode=target *flags: clean (compile mode 'src' / 'main.c') && (report mode)
    @echo building {{ name }} in {{ path }}
    cc -O2 {{ flags }} -o {{ name }} src/main.c \
        src/other.c
    -strip {{ name }}
    echo {{{{not a value}} done
    ls -l {{ if mode == 'debug' { '.' } else { path } }}

[private]
[arg('file', long, pattern='[a-z]+', help="what to compile")]
compile mode file: clean
    #!/usr/bin/env python3
    print('{{ mode }}')

    for line in open('{{ file }}'):
        print(line)

[cache(inputs='src', outputs='out'), script('sh', '-eu')]
report $mode +others='none':
    echo {{ mode }}
    echo {{ others }}
    date
    true
    false

clean:
    rm -rf out
    mkdir out
    echo one
    echo two
    echo three
    echo four

