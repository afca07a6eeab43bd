"""Random workspaces of C: headers that include one another, macros that are defined, tested, pasted and taken away, functions and
macros that call one another, read-only files, projects and settings. `seed` says which ones `workspace` makes."""
import random

r = random.Random()
seed = r.seed
NAMES=['na','nb','nc','nd','ne']; MACROS=['MA','MB','MC','MD']; CALLS=['F1','F2']
class Words:
    """What a unit may name so far: objects, functions, types, tags, macros."""
    def __init__(self): self.objects,self.types,self.tags=[],[],[]
def line(w,n):
    """An item of a header or a unit; n tells names apart where C wants it."""
    x=r.random(); a=r.choice(NAMES)
    if x<.16: w.objects.append(a); return ['extern int %s;'%a]
    if x<.24: w.objects.append('f%s()'%a); return ['int f%s();'%a]
    if x<.30: t='t%d%s'%(n,a); w.types.append(t); return [] if w.types.count(t)>1 else ['typedef int %s;'%t]
    if x<.36:
        t='s%d%s'%(n,a)
        if t in w.tags: return []
        w.tags.append(t); return ['struct %s { int %s; int mb; };'%(t,a)]
    if x<.42: e='e%d%s'%(n,a); s=e in w.objects; w.objects.append(e); return [] if s else ['enum { %s = %d };'%(e,r.randrange(9))]
    if x<.56: return ['#define %s %s'%(r.choice(MACROS),r.choice(['1','2','','MB','(MC + 1)','__LINE__',a]))]
    if x<.62: return ['#define %s(x) %s'%(r.choice(CALLS),r.choice(['x','((x) + 1)','MA x','n##x']))]
    if x<.70: return ['#undef %s'%r.choice(MACROS+CALLS)]
    if x<.78: return ['#%s %s'%(r.choice(['ifdef','ifndef']),r.choice(MACROS)),'extern int g%s;'%a,'#endif']
    if x<.86: return ['#if defined %s || %s'%(r.choice(MACROS),r.choice(['MA == 1','MD','0','1'])),'#define %s 2'%r.choice(MACROS),'#else','#define ME 1','#endif']
    if x<.93: return ['static int l%d%s(int %s) { return %s; }'%(r.randrange(99999),a,a,r.choice(['0',a]))]
    return ['#define lo\\','ng%d 1'%r.randrange(3)]
def called(own):
    """What calls a function of the unit or a macro of `calling`."""
    f=r.choice(own+['fna()'])
    return r.choice([f,f,'CA','CB(%s)'%f,'CC(n,a)','1'])
def calling(own,c,k):
    """Macros that call, and a function that calls them."""
    o=[]
    for m in ['CA','CB(x)','CC(p,q)']:
        body=r.choice(['1','(1 + %s)'%called(own),'CA','CB(2)']+(['(x + x)','x'] if 'x' in m else [])+(['fn##q()','p##a','f##p##q()'] if 'q' in m else []))
        o+=['#undef %s'%m.split('(')[0],'#define %s %s'%(m,body)]
    o+=['extern int na, *nf; extern int fna(void);']
    f='c%s%d'%(c,k); s=r.choice(['','static '])
    if r.random()<.3: o.append('%sint %s(void);'%(s,f))
    o.append('%sint %s(void) { %s return %s%s; }'%(s,f,r.choice(['','int fna(void);','{ int q = %s; (void)q; }'%called(own)]),called(own),r.choice(['',' + %s()'%f,' + (%s)()'%f,' + '+called(own)])))
    own.append(f+'()')
    if r.random()<.3: o+=['#define CD 1','#if CD','int k%s%d[1 + 0 * sizeof(%s)];'%(c,k,called(own)),'#endif']
    return o
def header(k,others,w):
    o=['#ifndef H%d_H'%k,'#define H%d_H'%k]
    for h in r.sample(others,min(len(others),r.randrange(0,3))): o.append('#include "%s"'%h)
    for _ in range(r.randrange(0,5)): o+=line(w,k)
    return o+['#endif']
def value(w):
    x=r.random()
    if x<.3 or not w.objects: return str(r.randrange(9))
    if x<.75: return r.choice(w.objects)
    if x<.85 and w.types: return 'sizeof(%s)'%r.choice(w.types)
    if x<.95 and w.tags: return 'sizeof(struct %s)'%r.choice(w.tags)
    return 'sizeof(int)'
def unit(headers,w,c):
    o=[]; own=[]
    for h in r.sample(headers,r.randrange(0,len(headers)+1)):
        o.append('#include %s'%('"%s"'%h if r.random()<.8 else '<%s>'%h))
        if r.random()<.3: o+=line(w,8)
    for k in range(r.randrange(0,6)):
        if r.random()<.25: o+=calling(own,c,k); continue
        a=r.choice(NAMES); x=r.random()
        if x<.3: o.append('int %s;'%a); w.objects.append(a)
        elif x<.5: o.append('int v%s%d = sizeof(%s);'%(c,k,value(w)))
        elif x<.7: o.append('int u%s%d(int p%s) { %s return %s; }'%(c,k,a,r.choice(['','int q; q = p%s;'%a,'goto l; l: ;','{ struct { int z; } y; y.z = 0; }']),r.choice(['0','p'+a,value(w)])))
        elif x<.8 and headers: o.append('#include "%s"'%r.choice(headers))
        elif x<.86: o+=['#ifdef %s'%r.choice(MACROS),'int w%s%d = %s;'%(c,k,r.choice(['0','1'])),'#endif']
        elif x<.9: o+=['#define HERE "%s"'%r.choice(headers or ['h0.h']),'#include HERE'] if headers else []
        else: o+=line(w,9)
    if r.random()<.4: o.append('int main(void) { return %s; }'%value(w))
    if r.random()<.05: o.append(r.choice(['int bad = zz;','int x y;','#error no','int w = sizeof(struct none_of);']))
    return o
def workspace():
    """The files of a workspace by their paths; not all are accepted, since what an item names may be missing there."""
    files={}; names=[]; words=Words()
    for k in range(r.randrange(1,5)):
        name=r.choice(['h%d.h','h%d.h','ro/h%d.h'])%k
        files[name]=header(k,names,words); names.append(name)
    ws=['ipath .']+(['readonly ro/'] if r.random()<.6 else [])
    for c in 'abc'[:r.randrange(1,4)]:
        files[c+'.c']=unit(names,words,c)
        if r.random()<.3: ws.append('project %s'%r.choice(['one','two']))
        if r.random()<.2: ws.append('define %s %s'%(r.choice(MACROS),r.choice(['1','na',''])))
        ws+=['file %s.c'%c]*(2 if r.random()<.2 else 1)
    files['w.cs']=ws
    return files
